//! The processor time of a call, on this thread alone.
use std::time::Duration;

extern "C" {
    fn clock_gettime(clock: i32, time: *mut [i64; 2]) -> i32;
}

/// Linux's CLOCK_THREAD_CPUTIME_ID.
const THREAD: i32 = 3;

fn now() -> Duration {
    let mut time = [0; 2];
    // SAFETY: the call writes seconds and nanoseconds into the two numbers.
    assert_eq!(unsafe { clock_gettime(THREAD, &mut time) }, 0, "this thread has a clock");
    Duration::new(time[0] as u64, time[1] as u32)
}

pub fn spent(call: impl FnOnce()) -> Duration {
    let before = now();
    call();
    now() - before
}
