//! The processor time of this process: a busy machine compares as many cases as a quiet one.
use std::time::Duration;

#[repr(C)]
struct TimeSpec {
    seconds: i64,
    nanoseconds: i64,
}

extern "C" {
    fn clock_gettime(clock: i32, time: *mut TimeSpec) -> i32;
}

fn now() -> Duration {
    const PROCESS_CPU_TIME: i32 = 2;
    let mut time = TimeSpec { seconds: 0, nanoseconds: 0 };
    assert_eq!(unsafe { clock_gettime(PROCESS_CPU_TIME, &mut time) }, 0);
    Duration::new(time.seconds as u64, time.nanoseconds as u32)
}

pub struct Spent(Duration);

impl Spent {
    pub fn begin() -> Self {
        Spent(now())
    }

    pub fn elapsed(&self) -> Duration {
        now() - self.0
    }
}
