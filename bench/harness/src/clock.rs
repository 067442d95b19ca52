//! How long a call takes: the lesser of the time that passes and of the
//! thread's processor time, so that other work on the machine is not charged
//! to a call that it interrupts.

use std::time::{Duration, Instant};

#[repr(C)]
struct Timespec {
    seconds: i64,
    nanoseconds: i64,
}

extern "C" {
    fn clock_gettime(clock: i32, time: *mut Timespec) -> i32;
}

/// Linux's number of the thread's own clock.
const THREAD_CLOCK: i32 = 3;

fn processor() -> Duration {
    let mut time = Timespec { seconds: 0, nanoseconds: 0 };
    let code = unsafe { clock_gettime(THREAD_CLOCK, &mut time) };
    assert_eq!(code, 0, "there is no clock of the thread");
    Duration::new(time.seconds as u64, time.nanoseconds as u32)
}

pub fn timed(call: impl FnOnce()) -> Duration {
    let before = processor();
    let begin = Instant::now();
    call();
    let passed = begin.elapsed();
    passed.min(processor() - before)
}
