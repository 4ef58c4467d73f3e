//! If the library brings the program down, the case that did it is named; `--show` prints it.

use crate::case::{CALLS, Call};
use std::io::Write;
use std::sync::atomic::{AtomicU64, Ordering::Relaxed};

static CALL: AtomicU64 = AtomicU64::new(0);
static SEED: AtomicU64 = AtomicU64::new(0);
static NUMBER: AtomicU64 = AtomicU64::new(0);

#[repr(C)]
struct Action {
    handler: extern "C" fn(i32),
    mask: [u64; 16],
    flags: i32,
    restorer: usize,
}

unsafe extern "C" {
    fn sigaction(signal: i32, new: *const Action, old: *mut Action) -> i32;
    fn write(file: i32, bytes: *const u8, count: usize) -> isize;
    fn _exit(status: i32) -> !;
}

/// Notes which case comes next.
pub fn next(call: Call, seed: u64, number: u64) {
    CALL.store(call as u64, Relaxed);
    SEED.store(seed, Relaxed);
    NUMBER.store(number, Relaxed);
}

/// Names the case, without asking for memory, and ends the program.
extern "C" fn name(signal: i32) {
    let mut text = [0; 200];
    let mut rest = &mut text[..];
    let (call, seed, number) = (CALLS[CALL.load(Relaxed) as usize].name(), SEED.load(Relaxed), NUMBER.load(Relaxed));
    let _ = writeln!(rest, "{call}: signal {signal} in case {number} of seed {seed}; oracle --call {call} --seed {seed} --show {number} prints it");
    let length = 200 - rest.len();
    unsafe {
        write(1, text.as_ptr(), length);
        _exit(1)
    }
}

/// Lets `name` hear of the signals 4, 6, 7, 8 and 11 (a bad instruction, an end, a bad address, a division, no such memory), on a stack of its own.
pub fn watch() {
    let action = Action { handler: name, mask: [0; 16], flags: 0x0800_0000, restorer: 0 };
    for signal in [4, 6, 7, 8, 11] {
        unsafe { sigaction(signal, &action, std::ptr::null_mut()) };
    }
}
