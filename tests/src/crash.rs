//! Tells which list was running when the library brings the process down.

use std::sync::atomic::{AtomicU64, Ordering};

static SEED: AtomicU64 = AtomicU64::new(0);

/// Illegal instruction, trap, abort, bus error, arithmetic, bad address.
const SIGNALS: [i32; 6] = [4, 5, 6, 7, 8, 11];

extern "C" {
    fn signal(number: i32, handler: extern "C" fn(i32)) -> usize;
    fn write(file: i32, bytes: *const u8, count: usize) -> isize;
    fn _exit(status: i32) -> !;
}

/// Watches for crashes from here on.
pub fn watch() {
    for number in SIGNALS {
        // Safety: the handler only reads an atomic and makes calls that are allowed there.
        unsafe { signal(number, tell) };
    }
}

/// The list of this seed runs now.
pub fn running(seed: u64) {
    SEED.store(seed, Ordering::Relaxed);
}

extern "C" fn tell(_number: i32) {
    let mut line = *b"the library crashed in the list of seed                     \n";
    let mut rest = SEED.load(Ordering::Relaxed);
    for place in (40..60).rev() {
        line[place] = b'0' + (rest % 10) as u8;
        rest /= 10;
        if rest == 0 {
            break;
        }
    }
    // Safety: the line is as long as said.
    unsafe {
        write(2, line.as_ptr(), line.len());
        _exit(1)
    }
}
