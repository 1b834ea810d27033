//! The time that this thread has spent on a processor.

// It calls what is not Rust.
#![allow(unsafe_code)]

use std::time::Duration;

extern "C" {
    /// POSIX.
    fn clock_gettime(clock: i32, time: *mut Timespec) -> i32;
}

/// A `struct timespec` of 64-bit Linux.
#[repr(C)]
struct Timespec {
    seconds: i64,
    nanoseconds: i64,
}

/// Linux's clock of that name.
const CLOCK_THREAD_CPUTIME_ID: i32 = 3;

/// How long this thread has been on a processor: other work on the machine makes
/// this longer only by what it takes of caches and memory.
pub fn cpu_time() -> Duration {
    let mut time = Timespec {
        seconds: 0,
        nanoseconds: 0,
    };
    // SAFETY: the pointer is to a timespec that nothing else holds.
    let status = unsafe { clock_gettime(CLOCK_THREAD_CPUTIME_ID, &mut time) };
    assert_eq!(status, 0, "the thread's clock can be read");
    Duration::new(time.seconds as u64, time.nanoseconds as u32)
}

/// How long `work` takes.
pub fn time<T>(work: impl FnOnce() -> T) -> (T, Duration) {
    let began = cpu_time();
    let done = work();
    (done, cpu_time() - began)
}
