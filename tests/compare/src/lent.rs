//! Buffers to lend to the library, in which a byte touched outside is seen.
//!
//! A buffer stands in a room of memory between two pages that may not be touched: at the end of the room, at its start, or in the middle at any place in a word
//! of 16 bytes. Guard bytes stand on both sides of it. A byte that is read or written outside of the room ends the program by a signal; a guard byte that is
//! written is found. A sealed room may not be written at all.

use std::ptr;

/// So many guard bytes on each side, where the room has them.
const GUARD: usize = 64;
const PAGE: usize = 4096;
/// The middle of the room begins here: room for the guard bytes before it.
const MIDDLE: usize = GUARD;

/// In how many places a buffer can stand.
pub const PLACES: u64 = 18;

extern "C" {
    fn mmap(at: *mut u8, size: usize, protection: i32, flags: i32, file: i32, offset: i64) -> *mut u8;
    fn mprotect(at: *mut u8, size: usize, protection: i32) -> i32;
    fn signal(number: i32, handler: usize) -> usize;
}
const NONE: i32 = 0;
const READ: i32 = 1;
const READ_WRITE: i32 = 3;
/// MAP_PRIVATE and MAP_ANONYMOUS of Linux.
const PRIVATE: i32 = 0x22;
/// SIGBUS and SIGSEGV.
const SIGNALS: [i32; 2] = [7, 11];

/// Calls `handler` in the thread that touched a page which may not be touched.
pub fn on_touch(handler: extern "C" fn(i32)) {
    for number in SIGNALS {
        // SAFETY: the handler has the type that a signal's has.
        unsafe { signal(number, handler as usize) };
    }
}

pub struct Room {
    start: *mut u8,
    size: usize,
    /// where the buffer that is lent begins, and how long it is
    at: usize,
    length: usize,
    guard: u8,
}

impl Room {
    /// A room for buffers of up to `most` bytes.
    pub fn new(most: usize) -> Room {
        let size = (MIDDLE + 16 + most + GUARD).div_ceil(PAGE) * PAGE;
        // SAFETY: fresh pages, which nobody else knows.
        let start = unsafe {
            let whole = mmap(ptr::null_mut(), size + 2 * PAGE, NONE, PRIVATE, -1, 0);
            assert!(whole as isize != -1, "no memory");
            assert!(mprotect(whole.add(PAGE), size, READ_WRITE) == 0, "no memory that may be written");
            whole.add(PAGE)
        };
        Room { start, size, at: 0, length: 0, guard: 0 }
    }

    /// Lends a copy of the bytes. Places: 0 at the end of the room, 1 at its start, the others in the middle. A length of 0 may come with any pointer: it comes
    /// with a null pointer, or with one to a byte that no program has.
    pub fn lend(&mut self, bytes: &[u8], place: u64, guard: u8) -> *mut u8 {
        assert!(bytes.len() + MIDDLE + 16 + GUARD <= self.size && place < PLACES);
        self.length = bytes.len();
        self.at = match place { 0 => self.size - bytes.len(), 1 => 0, _ => MIDDLE + place as usize - 2 };
        self.guard = guard;
        let (before, after) = self.guards();
        // SAFETY: all of it is inside the room.
        unsafe {
            ptr::write_bytes(self.start.add(before.0), guard, before.1);
            ptr::write_bytes(self.start.add(after.0), guard, after.1);
            ptr::copy_nonoverlapping(bytes.as_ptr(), self.start.add(self.at), bytes.len());
            if bytes.is_empty() { (place as usize % 2 * 8) as *mut u8 } else { self.start.add(self.at) }
        }
    }

    /// Start and length of the guard bytes before and after the buffer.
    fn guards(&self) -> ((usize, usize), (usize, usize)) {
        let before = self.at.min(GUARD);
        let end = self.at + self.length;
        ((self.at - before, before), (end, (self.size - end).min(GUARD)))
    }

    fn part(&self, (at, length): (usize, usize)) -> &[u8] {
        assert!(at + length <= self.size);
        // SAFETY: inside the room, and nobody writes it while it is looked at.
        unsafe { std::slice::from_raw_parts(self.start.add(at), length) }
    }

    /// The bytes of the buffer as they are now.
    pub fn bytes(&self) -> &[u8] { self.part((self.at, self.length)) }

    /// All guard bytes stand.
    pub fn guarded(&self) -> bool {
        let (before, after) = self.guards();
        self.part(before).iter().all(|b| *b == self.guard) && self.part(after).iter().all(|b| *b == self.guard)
    }

    pub fn seal(&mut self) { self.protect(READ); }
    pub fn unseal(&mut self) { self.protect(READ_WRITE); }
    fn protect(&mut self, protection: i32) {
        // SAFETY: whole pages of this room.
        assert!(unsafe { mprotect(self.start, self.size, protection) } == 0, "a page cannot be sealed");
    }
}
