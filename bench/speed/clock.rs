//! The processor time of a thread.

use std::time::Duration;

/// Seconds and nanoseconds as the operating system gives them.
#[repr(C)]
struct Instant {
    seconds: i64,
    nanoseconds: i64,
}

extern "C" {
    fn clock_gettime(clock: i32, instant: *mut Instant) -> i32;
}

/// The clock that runs only while this thread does, so that other work on the machine counts little.
const OF_THIS_THREAD: i32 = 3;

/// The processor time that this thread has used.
pub fn used() -> Duration {
    let mut now = Instant {
        seconds: 0,
        nanoseconds: 0,
    };
    // SAFETY: the pointer is to a struct of the layout that the function fills.
    unsafe { clock_gettime(OF_THIS_THREAD, &mut now) };
    Duration::new(now.seconds as u64, now.nanoseconds as u32)
}
