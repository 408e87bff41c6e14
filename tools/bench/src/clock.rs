//! The clock: processor time of this thread, so that other programs on the machine take part in as little as can be.

use std::array::from_fn;

/// How many samples a time is the median of, and how long one is at least, in microseconds.
const SAMPLES: usize = 31;
const SAMPLE: f64 = 1_000.0;

#[repr(C)]
struct Timespec {
    seconds: i64,
    nanoseconds: i64,
}

extern "C" {
    fn clock_gettime(clock: i32, time: *mut Timespec) -> i32;
}

/// CLOCK_THREAD_CPUTIME_ID of Linux.
const THREAD: i32 = 3;

/// Microseconds of processor time that this thread has taken.
fn now() -> f64 {
    let mut time = Timespec { seconds: 0, nanoseconds: 0 };
    let status = unsafe { clock_gettime(THREAD, &mut time) }; // writes `time` alone
    assert_eq!(status, 0, "Linux has this clock");
    time.seconds as f64 * 1e6 + time.nanoseconds as f64 / 1e3
}

/// A run to be timed.
pub type Run<'a> = &'a mut dyn FnMut();

/// Microseconds for one of `count` runs.
fn sample(run: Run, count: usize) -> f64 {
    let before = now();
    for _ in 0..count {
        run();
    }
    (now() - before) / count as f64
}

/// How many runs make one sample; they warm up too.
fn runs_for(run: Run) -> usize {
    let mut count = 1;
    while sample(run, count) * (count as f64) < SAMPLE {
        count *= 2;
    }
    count
}

fn median(mut times: Vec<f64>) -> f64 {
    times.sort_by(f64::total_cmp);
    times[times.len() / 2]
}

/// Microseconds for each of the runs: the median of its samples. The samples are taken by turns.
pub fn times<const N: usize>(runs: [Run; N]) -> [f64; N] {
    let counts: [usize; N] = from_fn(|i| runs_for(&mut *runs[i]));
    let turns: Vec<[f64; N]> = (0..SAMPLES).map(|_| from_fn(|i| sample(&mut *runs[i], counts[i]))).collect();
    from_fn(|i| median(turns.iter().map(|turn| turn[i]).collect()))
}
