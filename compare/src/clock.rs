//! The time that this thread was on a processor, so that the machine's other work does not count.

#[repr(C)]
struct Timespec {
    seconds: i64,
    nanoseconds: i64,
}

/// Linux's number for the thread's own clock.
const OF_THREAD: i32 = 3;

extern "C" {
    fn clock_gettime(clock: i32, time: *mut Timespec) -> i32;
}

/// Nanoseconds.
pub fn now() -> u64 {
    let mut time = Timespec { seconds: 0, nanoseconds: 0 };
    // SAFETY: the C library writes to the place that is lent.
    unsafe { clock_gettime(OF_THREAD, &mut time) };
    time.seconds as u64 * 1_000_000_000 + time.nanoseconds as u64
}

/// What it costs to ask.
pub fn cost() -> u64 {
    (0..1000).map(|_| now().abs_diff(now())).min().expect("a time")
}
