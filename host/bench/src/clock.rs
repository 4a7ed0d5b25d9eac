//! The processor time of this thread: what other programs take in between does
//! not count.

use std::time::Duration;

/// Of Linux with 64 bits.
#[repr(C)]
struct Timespec {
    seconds: i64,
    nanoseconds: i64,
}

const CLOCK_THREAD_CPUTIME_ID: i32 = 3;

unsafe extern "C" {
    fn clock_gettime(clock: i32, time: *mut Timespec) -> i32;
}

/// How much this thread has had until now.
pub fn now() -> Duration {
    let mut time = Timespec {
        seconds: 0,
        nanoseconds: 0,
    };
    // SAFETY: `time` is writable, and has the layout of the C library's struct.
    let refused = unsafe { clock_gettime(CLOCK_THREAD_CPUTIME_ID, &mut time) };
    assert_eq!(refused, 0, "there is no such clock");
    Duration::new(time.seconds as u64, time.nanoseconds as u32)
}
