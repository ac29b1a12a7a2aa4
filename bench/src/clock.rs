//! The time that the processor has spent on this thread, which other work on the machine doesn't lengthen.
use std::ffi::{c_int, c_long};

/// As in the C library on Linux, x86-64.
#[repr(C)]
struct Time {
    seconds: c_long,
    nanoseconds: c_long,
}

unsafe extern "C" {
    fn clock_gettime(clock: c_int, time: &mut Time) -> c_int;
}

/// The clock of this thread's own time.
const THREAD: c_int = 3;

/// In microseconds, from some point on.
pub fn processor_time() -> f64 {
    let mut time = Time {
        seconds: 0,
        nanoseconds: 0,
    };
    // SAFETY: the function writes the struct that it is lent.
    let failed = unsafe { clock_gettime(THREAD, &mut time) };
    assert_eq!(failed, 0, "there is no clock of the thread's time");
    time.seconds as f64 * 1e6 + time.nanoseconds as f64 / 1e3
}
