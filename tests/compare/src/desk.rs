//! One call at a time on the library and on the simulator, and the list that shows a difference.

use crate::counts::{Counts, Kind};
use crate::lent::{Room, PLACES};
use crate::level;
use second_simulator::bytes::hex;
use second_simulator::calls::{Call, Machine, Simulator};
use second_simulator::gen::{list_text, Step};
use second_simulator::list::Lent;
use std::cell::{Cell, RefCell};
use std::path::{Path, PathBuf};
use std::rc::Rc;
use std::sync::Mutex;

/// The calls of include/dispatcher.h, and plan from text to text.
#[derive(Clone, Copy)]
pub struct Library {
    pub open: unsafe extern "C" fn(*mut u8, usize, u32, *mut u8, usize) -> u32,
    pub quote: unsafe extern "C" fn(*const u8, usize, *const u8, usize, *mut u8, usize) -> u32,
    pub offer: unsafe extern "C" fn(*mut u8, usize, *const u8, usize, *mut u8, usize) -> u32,
    pub quote_format: unsafe extern "C" fn(*const u8, usize, u32, u32, u8, *const u8, usize, *mut u8, usize) -> u32,
    pub offer_format: unsafe extern "C" fn(*mut u8, usize, u32, u32, u8, *const u8, usize, *mut u8, usize) -> u32,
    pub advance: unsafe extern "C" fn(*mut u8, usize, *mut u8, usize) -> u32,
    pub plan_text: unsafe extern "C" fn(*const u8, usize, *mut u8) -> usize,
}

/// Longest image, longest order block or sheet, and longest reply that are lent.
const MOST_IMAGE: usize = 4096;
const MOST_ORDER: usize = 1024;
const MOST_REPLY: usize = 64;

pub struct Desk {
    library: Library,
    image: Room,
    /// for the order block, or for the sheet of a format order
    order: Room,
    reply: Room,
    turn: u64,
    /// every so many calls the order block or sheet, and the image of a quote, cannot be written while the library has them
    sealed: u64,
    /// the list so far: its first image, and its calls
    first: Vec<u8>,
    history: Vec<Lent>,
    /// the image before the last call
    before: Vec<u8>,
    /// which list it is, in words, and its kind
    name: String,
    kind: Kind,
    /// calls made now stand beside the list and not in it; the last one did so
    pub aside: bool,
    beside: bool,
    /// the simulator is left out: what the library gives is what the list goes on with
    alone: bool,
    /// where the list of a difference is written, if anywhere
    folder: Option<PathBuf>,
    pub counts: Counts,
}

/// What a call lends beside image and reply, to be read only: an order block or a sheet, and its name.
fn order_of(call: &Call) -> Option<(&'static str, &[u8])> {
    match call {
        Call::Quote { order } | Call::Offer { order } => Some(("order block", order)),
        Call::QuoteFormat { sheet, .. } | Call::OfferFormat { sheet, .. } => Some(("sheet", sheet)),
        _ => None,
    }
}

/// One who has lent buffers to the library, and can say what was being tried.
pub trait Lender {
    fn fail(&self, what: &str) -> !;
}

thread_local! {
    /// Who waits in this thread for the library to return, for a signal.
    static WAITING: Cell<Option<*const dyn Lender>> = const { Cell::new(None) };
}
/// Only one thread says that it found a difference.
pub static FOUND: Mutex<()> = Mutex::new(());

/// A page was touched that may not be.
pub extern "C" fn touched(signal: i32) {
    let Some(lender) = WAITING.get() else { std::process::abort() };
    // SAFETY: it waits in this thread, below on the stack.
    unsafe { (*lender).fail(&format!("signal {signal}: the library touched what is outside of the buffers, or wrote what is to be read only")) }
}

/// What the library returns to a call that `lender` makes.
pub fn waiting<T>(lender: &(dyn Lender + 'static), call: impl FnOnce() -> T) -> T {
    WAITING.set(Some(lender));
    let returned = call();
    WAITING.set(None);
    returned
}

impl Desk {
    pub fn new(library: Library, folder: Option<&Path>, alone: bool) -> Desk {
        Desk {
            library, image: Room::new(MOST_IMAGE), order: Room::new(MOST_ORDER), reply: Room::new(MOST_REPLY), turn: 0, sealed: 500,
            first: Vec::new(), history: Vec::new(), before: Vec::new(), name: String::new(), kind: Kind::Book, aside: false, beside: false, alone,
            folder: folder.map(Path::to_path_buf), counts: Counts::default(),
        }
    }

    /// The next call has all buffers in this place, one of PLACES, and from now on what is to be read only is sealed in every call.
    pub fn place_and_seal(&mut self, place: u64) {
        self.turn = place * (1 + PLACES + PLACES * PLACES);
        self.sealed = 1;
    }

    /// A list begins with this image.
    pub fn begin(&mut self, kind: Kind, name: &str, image: &[u8]) {
        self.name.clear();
        self.name.push_str(name);
        self.kind = kind;
        self.counts.lists[kind as usize] += 1;
        self.first.clear();
        self.first.extend_from_slice(image);
        self.history.clear();
        self.beside = false;
    }

    /// Makes the call on the library, on copies, and on the simulator, on `image` and `reply` themselves. Both have to leave the same.
    pub fn call(&mut self, call: &Call, image: &mut [u8], reply: &mut [u8]) -> u32 {
        if self.beside { self.history.pop(); }
        self.beside = self.aside;
        self.before.clear();
        self.before.extend_from_slice(image);
        self.history.push(Lent { call: call.clone(), reply: reply.to_vec() });
        let given = self.ask(call, image, reply);
        if self.alone {
            image.copy_from_slice(self.image.bytes());
            reply.copy_from_slice(self.reply.bytes());
            if !self.aside { self.counts.calls[self.kind as usize] += 1; }
            return given;
        }
        let number = Simulator(level()).call(call, image, reply);

        if given != number || self.reply.bytes() != reply {
            self.fail(&format!("the library gives {given} and reply {}, the simulator {number} and {}", hex(self.reply.bytes()), hex(reply)));
        }
        if self.image.bytes() != image {
            let at = self.image.bytes().iter().zip(image.iter()).position(|(a, b)| a != b).unwrap();
            self.fail(&format!("number {number}: byte {at} of the image is {} by the library, {} by the simulator", self.image.bytes()[at], image[at]));
        }
        if let Some((name, order)) = order_of(call) {
            if self.order.bytes() != order { self.fail(&format!("the {name} was changed")); }
            if !self.order.guarded() { self.fail(&format!("a byte beside the {name} was written")); }
        }
        if !self.image.guarded() { self.fail("a byte beside the image was written"); }
        if !self.reply.guarded() { self.fail("a byte beside the reply was written"); }

        if !self.aside { self.counts.call(self.kind, call, &self.before, number, reply); }
        number
    }

    /// The call on the library, on copies of the buffers. What it leaves is in the rooms.
    fn ask(&mut self, call: &Call, image: &[u8], reply: &[u8]) -> u32 {
        // Every place of the one buffer with every place of the others, and two guard bytes without a pattern.
        let turn = self.turn;
        self.turn += 1;
        let guard = if turn.wrapping_mul(0x9e37_79b9_7f4a_7c15) >> 63 == 0 { 0xc3 } else { 0x3c };
        let (i, il) = (self.image.lend(image, turn % PLACES, guard), image.len());
        let (r, rl) = (self.reply.lend(reply, turn / PLACES % PLACES, guard), reply.len());
        let order = order_of(call).map_or(&[][..], |(_, order)| order);
        let (o, ol) = (self.order.lend(order, turn / (PLACES * PLACES) % PLACES, guard), order.len());
        let sealed = (turn + 1) % self.sealed == 0;
        if sealed {
            self.order.seal();
            if call.reads_only() { self.image.seal(); }
        }
        // SAFETY: the buffers are lent whole, live through the call and do not overlap.
        let number = waiting(self, || unsafe {
            match call {
                Call::Open { stations } => (self.library.open)(i, il, *stations, r, rl),
                Call::Quote { .. } => (self.library.quote)(i, il, o, ol, r, rl),
                Call::Offer { .. } => (self.library.offer)(i, il, o, ol, r, rl),
                Call::QuoteFormat { format, due_in, rank, .. } => (self.library.quote_format)(i, il, *format, *due_in, *rank, o, ol, r, rl),
                Call::OfferFormat { format, due_in, rank, .. } => (self.library.offer_format)(i, il, *format, *due_in, *rank, o, ol, r, rl),
                Call::Advance => (self.library.advance)(i, il, r, rl),
                other => unreachable!("the library has no {other:?}"),
            }
        });
        if sealed {
            self.order.unseal();
            if call.reads_only() { self.image.unseal(); }
        }
        number
    }
}

impl Lender for Desk {
    /// Writes the list that shows a difference and ends the program.
    fn fail(&self, what: &str) -> ! {
        let _one = FOUND.lock();
        println!("\nDIFFERENCE in {}, call {}: {what}", self.name, self.history.len());
        let last = self.history.last().cloned();
        if let Some(lent) = &last { println!("the call: {} {}", lent.call.to_text(), hex(&lent.reply)); }
        let Some(folder) = &self.folder else { std::process::exit(1) };
        let steps = |image: &[u8], calls: &[Lent]| {
            let mut all = vec![Step::Image(image.to_vec())];
            all.extend(calls.iter().cloned().map(Step::Call));
            list_text(level(), &all)
        };
        let whole = steps(&self.first, &self.history);
        let short = last.map(|lent| steps(&self.before, &[lent]));
        for (file, text) in [("whole-list.txt", Some(whole)), ("last-call.txt", short)] {
            let Some(text) = text else { continue };
            let path = folder.join(file);
            match std::fs::write(&path, text) {
                Ok(()) => println!("written: {}    (replay: tests/compare/run replay {})", path.display(), path.display()),
                Err(e) => println!("{} cannot be written: {e}", path.display()),
            }
        }
        std::process::exit(1)
    }
}

/// A desk that several hold: those who make lists, and the run book's runner, which lends it the image.
#[derive(Clone)]
pub struct Clerk(pub Rc<RefCell<Desk>>);

impl Machine for Clerk {
    fn call(&mut self, call: &Call, image: &mut [u8], reply: &mut [u8]) -> u32 { self.0.borrow_mut().call(call, image, reply) }
}

/// A list of calls on one image after another, for those who make lists.
pub struct Series<'d> {
    desk: &'d mut Desk,
    pub image: Vec<u8>,
}

impl<'d> Series<'d> {
    pub fn new(desk: &'d mut Desk, kind: Kind, name: &str, image: Vec<u8>) -> Series<'d> {
        desk.counts.image(&image);
        desk.begin(kind, name, &image);
        Series { desk, image }
    }

    pub fn call(&mut self, call: &Call, mut reply: Vec<u8>) -> u32 { self.desk.call(call, &mut self.image, &mut reply) }
}
