//! Memory by hand: buffers between fences, and a word about where a memory fault came. Linux on x86-64.

use std::ffi::{c_char, c_int, c_uint, c_void};
use std::sync::atomic::{AtomicU64, Ordering};

pub const PAGE: usize = 4_096;

const PROT_NONE: c_int = 0;
const PROT_READ: c_int = 1;
const PROT_WRITE: c_int = 2;
const MAP_SHARED: c_int = 0x01;
const MAP_PRIVATE: c_int = 0x02;
const MAP_FIXED: c_int = 0x10;
const MAP_ANONYMOUS: c_int = 0x20;
const MAP_NORESERVE: c_int = 0x4000;
const SIGBUS: c_int = 7;
const SIGSEGV: c_int = 11;
const SA_SIGINFO: c_int = 4;
const SA_ONSTACK: c_int = 0x0800_0000;

/// glibc's struct sigaction.
#[repr(C)]
struct SigAction {
    handler: usize,
    mask: [u64; 16],
    flags: c_int,
    restorer: usize,
}

extern "C" {
    fn mmap(at: *mut c_void, length: usize, access: c_int, flags: c_int, file: c_int, offset: i64) -> *mut c_void;
    fn munmap(at: *mut c_void, length: usize) -> c_int;
    fn memfd_create(name: *const c_char, flags: c_uint) -> c_int;
    fn ftruncate(file: c_int, length: i64) -> c_int;
    fn close(file: c_int) -> c_int;
    fn sigaction(signal: c_int, new: *const SigAction, old: *mut SigAction) -> c_int;
    fn write(file: c_int, bytes: *const c_void, length: usize) -> isize;
    fn _exit(code: c_int) -> !;
}

// -------------------------------------------------------------------- fences

/// Which end of a buffer touches a fence.
#[derive(Clone, Copy, Debug, PartialEq, Eq)]
pub enum Side {
    EndsAtFence,
    BeginsBehindFence,
}

/// What stands between the fences outside the lent bytes, and must stay.
const AROUND: u8 = 0xB7;

/// Pages between two that nobody may touch, mapped twice: once to be written, once to be read only. So a call can be
/// lent either without a change of access before it, which would be slow.
pub struct Fenced {
    writable: *mut u8,
    read_only: *mut u8,
    room: usize,
    /// The lent bytes: their place behind the front fence's begin, and their number.
    place: usize,
    length: usize,
    /// Is the room filled with AROUND? Very large ones are not, to leave them untouched.
    marked: bool,
}

/// Reserves fences with a room for the file's pages between them.
fn mapped(file: c_int, room: usize, access: c_int) -> *mut u8 {
    // SAFETY: a new reservation anywhere, then pages over a part of it.
    unsafe {
        let flags = MAP_PRIVATE | MAP_ANONYMOUS | MAP_NORESERVE;
        let base = mmap(std::ptr::null_mut(), room + 2 * PAGE, PROT_NONE, flags, -1, 0) as *mut u8;
        assert!(base as isize != -1, "mmap");
        let inside = mmap(base.add(PAGE) as *mut c_void, room, access, MAP_SHARED | MAP_FIXED, file, 0);
        assert!(inside as isize != -1, "mmap");
        base
    }
}

impl Fenced {
    /// Room for at least so many bytes.
    pub fn new(bytes: usize, marked: bool) -> Fenced {
        let room = bytes.max(1).div_ceil(PAGE) * PAGE;
        // SAFETY: a file without a name, of the room's length, that lives as long as its mappings.
        let fenced = unsafe {
            let file = memfd_create(c"fenced".as_ptr(), 0);
            assert!(file >= 0 && ftruncate(file, room as i64) == 0, "memfd_create");
            let writable = mapped(file, room, PROT_READ | PROT_WRITE);
            let read_only = mapped(file, room, PROT_READ);
            close(file);
            Fenced { writable, read_only, room, place: 0, length: 0, marked }
        };
        if marked {
            // SAFETY: the room is ours and writable.
            unsafe { std::ptr::write_bytes(fenced.writable.add(PAGE), AROUND, room) };
        }
        fenced
    }

    /// Lends so many bytes, the old ones wiped. Nothing at all is lent by a pointer to a fence.
    pub fn place(&mut self, side: Side, length: usize) {
        if self.marked && self.length > 0 {
            // SAFETY: the last lent bytes are inside.
            unsafe { std::ptr::write_bytes(self.at(), AROUND, self.length) };
        }
        if length > self.room {
            *self = Fenced::new(length, self.marked);
        }
        self.place = match side {
            Side::EndsAtFence => PAGE + self.room - length,
            Side::BeginsBehindFence if length == 0 => 0,
            Side::BeginsBehindFence => PAGE,
        };
        self.length = length;
    }

    /// Lends a copy of these bytes.
    pub fn lend(&mut self, side: Side, bytes: &[u8]) {
        self.place(side, bytes.len());
        // SAFETY: just placed, writable.
        unsafe { std::ptr::copy_nonoverlapping(bytes.as_ptr(), self.at(), bytes.len()) };
    }

    /// The lent bytes, to be written.
    pub fn at(&self) -> *mut u8 {
        // SAFETY: within the mapping, both fences included.
        unsafe { self.writable.add(self.place) }
    }

    /// The same bytes, where a write ends the program.
    pub fn at_read_only(&self) -> *mut u8 {
        // SAFETY: as `at`.
        unsafe { self.read_only.add(self.place) }
    }

    pub fn bytes(&self) -> &[u8] {
        if self.length == 0 {
            return &[];
        }
        // SAFETY: the lent bytes are inside and readable.
        unsafe { std::slice::from_raw_parts(self.at(), self.length) }
    }

    pub fn len(&self) -> usize {
        self.length
    }

    pub fn is_empty(&self) -> bool {
        self.length == 0
    }

    /// Up to a page's worth of bytes on either side of the lent ones was not written.
    pub fn around_stays(&self) -> bool {
        if !self.marked || self.length == 0 {
            return true;
        }
        // SAFETY: the room is readable.
        let all = unsafe { std::slice::from_raw_parts(self.writable.add(PAGE), self.room) };
        let start = self.place - PAGE;
        let before = &all[start.saturating_sub(PAGE)..start];
        let end = start + self.length;
        let behind = &all[end..(end + PAGE).min(self.room)];
        [before, behind].iter().all(|part| **part == [AROUND; PAGE][..part.len()])
    }
}

impl Drop for Fenced {
    fn drop(&mut self) {
        for base in [self.writable, self.read_only] {
            // SAFETY: our own mapping, and nobody keeps a pointer into it.
            unsafe { munmap(base as *mut c_void, self.room + 2 * PAGE) };
        }
    }
}

// -------------------------------------------------------------------- faults

static SEED: AtomicU64 = AtomicU64::new(0);
static CASE: AtomicU64 = AtomicU64::new(0);

/// In place of a case: the largest sizes.
pub const LARGEST: u64 = u64::MAX;

/// The case that a memory fault would belong to.
pub fn now(seed: u64, case: u64) {
    SEED.store(seed, Ordering::Relaxed);
    CASE.store(case, Ordering::Relaxed);
}

fn say(text: &[u8]) {
    // SAFETY: a plain write; its failure is of no account here.
    unsafe { write(2, text.as_ptr() as *const c_void, text.len()) };
}

/// Prints a number without the heap, which may be what was broken.
fn say_number(mut n: u64, base: u64) {
    let mut digits = [0u8; 20];
    let mut k = digits.len();
    loop {
        k -= 1;
        digits[k] = b"0123456789abcdef"[(n % base) as usize];
        n /= base;
        if n == 0 {
            break;
        }
    }
    say(&digits[k..]);
}

extern "C" fn fault(_signal: c_int, info: *const u8, _context: *const c_void) {
    say(b"MEMORY FAULT, seed ");
    say_number(SEED.load(Ordering::Relaxed), 10);
    match CASE.load(Ordering::Relaxed) {
        LARGEST => say(b", largest sizes"),
        case => {
            say(b", case ");
            say_number(case, 10);
        }
    }
    say(b", address 0x");
    // SAFETY: siginfo_t has the address at byte 16.
    say_number(unsafe { (info.add(16) as *const u64).read_unaligned() }, 16);
    say(b"\n");
    // SAFETY: ends the program at once.
    unsafe { _exit(139) }
}

/// From now on a memory fault says which case it came in, and ends the program with 139.
pub fn watch() {
    let handler: extern "C" fn(c_int, *const u8, *const c_void) = fault;
    let action = SigAction {
        handler: handler as usize,
        mask: [0; 16],
        // On the stack that Rust keeps for this: the fault may be the stack's.
        flags: SA_SIGINFO | SA_ONSTACK,
        restorer: 0,
    };
    for signal in [SIGSEGV, SIGBUS] {
        // SAFETY: the handler writes, reads atomics and exits, nothing else.
        let done = unsafe { sigaction(signal, &action, std::ptr::null_mut()) };
        assert!(done == 0, "sigaction");
    }
}
