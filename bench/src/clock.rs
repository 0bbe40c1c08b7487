//! The processor time of this thread: what a call takes, whatever else the machine does.
use std::time::Duration;

/// CLOCK_THREAD_CPUTIME_ID of Linux.
const THREAD_TIME: i32 = 3;

/// A timespec: seconds and nanoseconds.
#[repr(C)]
struct Time {
    seconds: i64,
    nanoseconds: i64,
}

unsafe extern "C" {
    fn clock_gettime(clock: i32, time: *mut Time) -> i32;
}

pub fn now() -> Duration {
    let mut time = Time {
        seconds: 0,
        nanoseconds: 0,
    };
    // SAFETY: `time` is a timespec of 64-bit Linux, and the call writes nothing else.
    assert_eq!(unsafe { clock_gettime(THREAD_TIME, &mut time) }, 0);
    Duration::new(time.seconds as u64, time.nanoseconds as u32)
}
