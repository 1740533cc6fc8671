//! Plan tables, from the bytes of an input to the bytes of the output: random ones by the simulator's maker, and ones at a limit.

use crate::desk::{waiting, Lender, Library, FOUND};
use crate::lent::{Room, PLACES};
use crate::level;
use second_simulator::gen::plan_input;
use second_simulator::plan::{self, Task};
use second_simulator::rng::Rng;
use std::path::{Path, PathBuf};

/// The output buffer that plan is lent.
const OUT: usize = 1024;
/// Longer inputs than this are never lent; document 01 declines those above 16,384.
const MOST_INPUT: usize = 20_000;

pub struct Tables {
    library: Library,
    input: Room,
    out: Room,
    turn: u64,
    folder: PathBuf,
    /// the table that is being tried: its name, its input, and what the simulator prints
    name: String,
    given: Vec<u8>,
    right: Vec<u8>,
}

fn text(n: u64, tasks: &[Task]) -> Vec<u8> {
    let mut text = format!("{n}\n");
    for t in tasks {
        text.push_str(&format!("{} {}", t.period, t.deadline));
        for c in &t.costs[..n.clamp(1, 8) as usize] { text.push_str(&format!(" {c}")); }
        text.push('\n');
    }
    text.into_bytes()
}

/// A table in range. `style` is how its figures look.
fn tasks(rng: &mut Rng, n: u64, style: u64) -> Vec<Task> {
    let count = match rng.below(6) { 0 => 32, 1 => 31, 2 => 1, 3 => 2, _ => rng.range(1, 32) };
    let (cost, period) = match style {
        0 => (1, 60_000),
        1 => (6_000, 60_000),
        2 => (6_000, 1),
        3 => (3, 400),
        4 => (30, 6_000),
        _ => (300, 60_000),
    };
    (0..count).map(|_| {
        let period = match rng.below(5) { 0 => period, 1 => 60_000, _ => rng.range(period.min(60), period) };
        let costs = std::array::from_fn(|j| if (j as u64) < n { match rng.below(4) { 0 => 1, 1 => cost, _ => rng.range(1, cost) } } else { 0 });
        Task { period, deadline: period, costs, ..Task::default() }
    }).collect()
}

/// Deadlines of a table: each its period or less, and then some at a limit. The own deadline plays no part in a response until that reaches it, so it is put at
/// the response and beside it. The deadline of another task is put where one release of it more begins to count against that response.
fn limit_deadlines(rng: &mut Rng, n: u64, table: &mut [Task]) {
    for t in table.iter_mut() {
        t.deadline = match rng.below(4) { 0 => rng.range(1, t.period), 1 => rng.range(1, t.period.min(40)), _ => t.period };
    }
    for _ in 0..rng.range(1, 4) {
        let k = rng.below(table.len() as u64) as usize;
        table[k].deadline = table[k].period;
        let mut figures = table.to_vec();
        assert_eq!(plan::plan(level(), n, &mut figures), 0);
        let (base, response) = (figures[k].base, figures[k].response);
        let other = rng.below(table.len() as u64) as usize;
        if other != k && rng.one_in(2) {
            let t = &mut table[other];
            // so many that response + deadline - 1 is a multiple of the period, or one more
            let full = t.period - (response - 1) % t.period;
            t.deadline = if rng.one_in(2) { full } else { full % t.period + 1 };
        } else {
            let near = match rng.below(5) { 0 => response, 1 => response + 1, 2 => response - 1, 3 => base, _ => base + 1 };
            table[k].deadline = near.clamp(1, table[k].period);
        }
    }
}

/// An input at a limit: its deadlines, one figure at its limit or beyond it, 32 and 33 lines, 16,384 and 16,385 bytes.
fn limit_input(rng: &mut Rng) -> Vec<u8> {
    let n = rng.range(1, 8);
    let style = rng.below(6);
    let mut table = tasks(rng, n, style);
    limit_deadlines(rng, n, &mut table);
    let k = rng.below(table.len() as u64) as usize;
    let j = rng.below(n) as usize;
    match rng.below(16) {
        0 => table[k].costs[j] = rng.pick(&[0, 6_000, 6_001, 999_999_999]),
        1 => table[k].period = rng.pick(&[0, 60_000, 60_001, 999_999_999]),
        2 => table[k].deadline = rng.pick(&[0, table[k].period, table[k].period + 1, 60_001]),
        3 => table.resize(rng.pick(&[32, 33]), table[0].clone()),
        4 => return text(rng.pick(&[0, 9, 10, 1_000_000_000]), &table),
        5 => {
            // a number of 9 or 10 digits, or one with a zero before it
            let mut t = text(n, &table);
            let digits: Vec<u8> = rng.pick(&["999999999", "1000000000", "4294967297", "01", "00", "0", "+1", "18446744073709551617"]).bytes().collect();
            let at = rng.below(t.len() as u64) as usize;
            let from = t[..at].iter().rposition(|b| !b.is_ascii_digit()).map_or(0, |p| p + 1);
            let to = t[at..].iter().position(|b| !b.is_ascii_digit()).map_or(t.len(), |p| at + p);
            t.splice(from..to.max(from), digits);
            return t;
        }
        6 => {
            let mut t = text(n, &table);
            let fill = rng.pick(&[b'1', b'\n', b' ']);
            t.resize(rng.pick(&[16_383, 16_384, 16_385, 16_386]), fill);
            if rng.one_in(2) { *t.last_mut().unwrap() = b'\n'; }
            return t;
        }
        7 => {
            let mut t = text(n, &table);
            let at = rng.below(t.len() as u64) as usize;
            t[at] = rng.pick(&[0, 9, 10, 11, 13, 32, 47, 58, 127, 128, 255]);
            return t;
        }
        _ => {}
    }
    text(n, &table)
}

impl Tables {
    pub fn new(library: Library, folder: &Path) -> Tables {
        Tables {
            library, input: Room::new(MOST_INPUT), out: Room::new(OUT), turn: 0, folder: folder.to_path_buf(),
            name: String::new(), given: Vec::new(), right: Vec::new(),
        }
    }

    /// One table. What kind of output it has.
    pub fn one(&mut self, name: &str, seed: u64) -> &'static str {
        let mut rng = Rng::new(seed);
        self.name = name.to_string();
        self.given = if rng.one_in(2) { plan_input(level(), rng.next()) } else { limit_input(&mut rng) };
        self.right = plan::program(level(), &self.given);
        let noise = rng.bytes(OUT);
        self.turn += 1;
        let guard = if seed >> 63 == 0 { 0xc3 } else { 0x3c };
        let i = self.input.lend(&self.given, self.turn % PLACES, guard);
        let o = self.out.lend(&noise, self.turn / PLACES % PLACES, guard);
        // SAFETY: the buffers are lent whole, live through the call and do not overlap.
        let length = waiting(self, || unsafe { (self.library.plan_text)(i, self.given.len(), o) });
        if length > OUT || self.out.bytes()[..length] != self.right {
            let shown = self.out.bytes()[..length.min(OUT)].to_vec();
            self.write("plan.library", &shown);
            self.fail("the outputs differ");
        }
        if self.out.bytes()[length..] != noise[length..] { self.fail("a byte after the output was written"); }
        if self.input.bytes() != self.given { self.fail("the input was changed"); }
        if !self.input.guarded() || !self.out.guarded() { self.fail("a byte beside a buffer was written"); }
        let has = |word: &[u8]| self.right.windows(word.len()).any(|w| w == word);
        match (self.right.strip_prefix(b"refused "), has(b" on-time\n"), has(b" late\n")) {
            (Some(b"15\n"), ..) => "refused 15",
            (Some(b"16\n"), ..) => "refused 16",
            (Some(b"17\n"), ..) => "refused 17",
            (Some(_), ..) => "refused 18",
            (None, true, true) => "on time and late",
            (None, true, false) => "on time",
            _ => "late",
        }
    }

    fn write(&self, file: &str, bytes: &[u8]) {
        let path = self.folder.join(file);
        match std::fs::write(&path, bytes) {
            Ok(()) => println!("written: {}", path.display()),
            Err(e) => println!("{} cannot be written: {e}", path.display()),
        }
    }
}

impl Lender for Tables {
    /// Writes the input and the simulator's output and ends the program.
    fn fail(&self, what: &str) -> ! {
        let _one = FOUND.lock();
        println!("\nDIFFERENCE in {}: {what}", self.name);
        self.write("plan.in", &self.given);
        self.write("plan.simulator", &self.right);
        println!("what the program prints: target/bin/plan < {}", self.folder.join("plan.in").display());
        std::process::exit(1)
    }
}
