//! When the library crashes the process: says in which case, so that it can be done again.

use std::sync::atomic::{AtomicU64, Ordering};

static SEED: AtomicU64 = AtomicU64::new(0);
static CASE: AtomicU64 = AtomicU64::new(0);

/// Signals of a crash, as Linux numbers them: illegal instruction, abort, bus error, arithmetic, segment.
const CRASHES: [i32; 5] = [4, 6, 7, 8, 11];
const STANDARD_ERROR: i32 = 2;

extern "C" {
    fn signal(number: i32, handler: extern "C" fn(i32)) -> usize;
    fn write(file: i32, bytes: *const u8, length: usize) -> isize;
    fn _exit(code: i32) -> !;
}

pub fn watch(seed: u64) {
    SEED.store(seed, Ordering::Relaxed);
    for number in CRASHES {
        // SAFETY: the handler only reads atomics and writes to standard error.
        unsafe { signal(number, crashed) };
    }
}

pub fn now(case: u64) {
    CASE.store(case, Ordering::Relaxed);
}

fn say(text: &[u8]) {
    // SAFETY: pointer and length are those of a slice.
    unsafe { write(STANDARD_ERROR, text.as_ptr(), text.len()) };
}

fn say_number(mut value: u64) {
    let mut digits = [0; 20];
    let mut first = digits.len();
    loop {
        first -= 1;
        digits[first] = b'0' + (value % 10) as u8;
        value /= 10;
        if value == 0 {
            break;
        }
    }
    say(&digits[first..]);
}

extern "C" fn crashed(number: i32) {
    say(b"CRASH by signal ");
    say_number(number as u64);
    say(b"; again with: diff --seed ");
    say_number(SEED.load(Ordering::Relaxed));
    say(b" --case ");
    say_number(CASE.load(Ordering::Relaxed));
    say(b"\n");
    // SAFETY: ends the process.
    unsafe { _exit(1) }
}
