//! The processor time of this thread, which other programs on the machine change less than the time
//! of day.

/// The C library's `struct timespec` on 64-bit Linux.
#[repr(C)]
struct Timespec {
    seconds: i64,
    nanoseconds: i64,
}

extern "C" {
    fn clock_gettime(clock: i32, time: *mut Timespec) -> i32;
}

/// The clock of the processor time of the calling thread (CLOCK_THREAD_CPUTIME_ID).
const THREAD_TIME: i32 = 3;

/// The processor time of this thread so far, in seconds.
pub fn processor_time() -> f64 {
    let mut time = Timespec {
        seconds: 0,
        nanoseconds: 0,
    };
    // Sound: the record is the one that the function fills in.
    let failed = unsafe { clock_gettime(THREAD_TIME, &mut time) };
    assert_eq!(failed, 0);
    time.seconds as f64 + time.nanoseconds as f64 * 1e-9
}

/// The processor time of a batch of so many calls, per call.
pub fn timed(calls: usize, batch: impl FnOnce()) -> f64 {
    let start = processor_time();
    batch();
    (processor_time() - start) / calls as f64
}
