//! The time that this thread has run. Other programs on the machine take none of it, so a loaded machine can be measured on.

use std::time::Duration;

#[repr(C)]
struct TimeSpec {
    seconds: i64,
    nanoseconds: i64,
}

/// Linux's CLOCK_THREAD_CPUTIME_ID.
const THREAD_TIME: i32 = 3;

extern "C" {
    // Of the C library, which the standard library links anyway.
    fn clock_gettime(clock: i32, time: *mut TimeSpec) -> i32;
}

pub fn thread_time() -> Duration {
    let mut time = TimeSpec { seconds: 0, nanoseconds: 0 };
    let failed = unsafe { clock_gettime(THREAD_TIME, &mut time) };
    assert_eq!(failed, 0, "the machine has no clock of a thread's time");
    Duration::new(time.seconds as u64, time.nanoseconds as u32)
}
