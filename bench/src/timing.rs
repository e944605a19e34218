//! Two ways of doing the same, timed in turn, by the processor time of this thread: what other programs take meanwhile is not counted.

use std::time::Duration;

/// How often both are timed, and how long one timing takes at the least.
const REPETITIONS: usize = 21;
const AT_LEAST: Duration = Duration::from_millis(6);

/// The medians of both in microseconds, and the median of the ratios of the pairs.
pub struct Timing {
    pub ours: f64,
    pub other: f64,
    pub ratio: f64,
}

/// As C's `struct timespec` on 64-bit Linux.
#[repr(C)]
struct Timespec {
    seconds: i64,
    nanoseconds: i64,
}

const CLOCK_THREAD_CPUTIME_ID: i32 = 3;

extern "C" {
    fn clock_gettime(clock: i32, time: &mut Timespec) -> i32;
}

fn processor_time() -> Duration {
    let mut time = Timespec { seconds: 0, nanoseconds: 0 };
    let failed = unsafe { clock_gettime(CLOCK_THREAD_CPUTIME_ID, &mut time) };
    assert_eq!(failed, 0, "the system has no clock of this thread's processor time");
    Duration::new(time.seconds as u64, time.nanoseconds as u32)
}

fn median(mut list: Vec<f64>) -> f64 {
    list.sort_by(f64::total_cmp);
    list[list.len() / 2]
}

fn run(times: usize, work: &mut dyn FnMut()) -> Duration {
    let start = processor_time();
    for _ in 0..times {
        work();
    }
    processor_time() - start
}

/// How often to do something so that it takes long enough to be timed; this warms it up too.
fn calibrate(work: &mut dyn FnMut()) -> usize {
    let mut times = 1;
    while run(times, work) < AT_LEAST {
        times *= 2;
    }
    times
}

/// Times both in turn, now the one first and now the other, as many times over as both need.
pub fn compare(ours: &mut dyn FnMut(), other: &mut dyn FnMut()) -> Timing {
    let times = calibrate(ours).max(calibrate(other));
    let micros = |taken: Duration| taken.as_secs_f64() * 1e6 / times as f64;
    let mut pairs = vec![];
    for i in 0..REPETITIONS {
        let (a, b);
        if i % 2 == 0 {
            a = micros(run(times, ours));
            b = micros(run(times, other));
        } else {
            b = micros(run(times, other));
            a = micros(run(times, ours));
        }
        pairs.push((a, b));
    }
    Timing {
        ours: median(pairs.iter().map(|p| p.0).collect()),
        other: median(pairs.iter().map(|p| p.1).collect()),
        ratio: median(pairs.iter().map(|p| p.0 / p.1).collect()),
    }
}
