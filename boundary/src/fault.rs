//! Says which call touched memory that was not lent.

use std::process;
use std::sync::atomic::{AtomicU64, Ordering::Relaxed};

/// Linux's SIGSEGV.
const FAULT: i32 = 11;

extern "C" {
    // Of the C library, which the standard library links anyway.
    fn signal(number: i32, handler: extern "C" fn(i32)) -> usize;
}

static SEED: AtomicU64 = AtomicU64::new(0);
static CALL: AtomicU64 = AtomicU64::new(0);

/// Notes the call that is made next.
pub fn note(seed: u64, call: u64) {
    SEED.store(seed, Relaxed);
    CALL.store(call, Relaxed);
}

/// From now on a fault ends the program with the call that was noted last. A stack that runs over still ends it without a word.
pub fn watch() {
    unsafe {
        signal(FAULT, say);
    }
}

extern "C" fn say(_: i32) {
    // The library that faults holds no lock and no heap, so that printing is safe here.
    eprintln!("seed {}, call {}: touched memory that was not lent", SEED.load(Relaxed), CALL.load(Relaxed));
    process::exit(1);
}
