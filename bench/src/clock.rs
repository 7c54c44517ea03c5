//! Processor time of the calling thread: what other programs do at the same time counts little.
use std::time::Duration;

extern "C" {
    fn clock_gettime(clock: i32, time: *mut [i64; 2]) -> i32;
}

pub fn spent() -> Duration {
    let mut time = [0i64; 2];
    // 3 is CLOCK_THREAD_CPUTIME_ID; the struct is two words of 64 bits
    assert_eq!(unsafe { clock_gettime(3, &mut time) }, 0, "no processor time");
    Duration::new(time[0] as u64, time[1] as u32)
}

/// What a call gives, and its time.
pub fn timed<T>(call: impl FnOnce() -> T) -> (T, Duration) {
    let before = spent();
    let given = call();
    (given, spent() - before)
}
