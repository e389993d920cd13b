//! Times.

use std::hint::black_box;
use std::time::Instant;

pub fn median(mut times: Vec<f64>) -> f64 {
    times.sort_by(f64::total_cmp);
    times[times.len() / 2]
}

/// Nanoseconds of a run.
pub fn timed<T>(run: impl FnOnce() -> T) -> (f64, T) {
    let start = Instant::now();
    let value = black_box(run());
    (start.elapsed().as_nanos() as f64, value)
}

/// Nanoseconds for one of n runs: the median over the rounds of a round's mean. The programs take turns within a round.
pub fn turns<const N: usize>(rounds: usize, n: usize, mut programs: [&mut dyn FnMut(usize); N]) -> [f64; N] {
    let mut times = [const { vec![] }; N];
    for _ in 0..rounds {
        for (program, times) in programs.iter_mut().zip(times.iter_mut()) {
            let (time, ()) = timed(|| (0..n).for_each(&mut **program));
            times.push(time / n as f64);
        }
    }
    times.map(median)
}
