//! What both benchmarks measure with.

use std::time::{Duration, Instant};

/// A run prepares what it needs and answers how long the call took.
pub type Run<'a> = Box<dyn FnMut() -> Duration + 'a>;

/// The median of each of these, run in turn, so that what else the machine does meanwhile falls on all of them: `least` times, and then up to
/// 2,001 times until `time` is over. Where one of them takes longer than half a second, three times.
pub fn medians<const N: usize>(mut runs: [Run; N], least: usize, time: Duration) -> [Duration; N] {
    let mut times: [Vec<Duration>; N] = std::array::from_fn(|_| Vec::new());
    let start = Instant::now();
    let mut longest = Duration::ZERO;
    let enough = |done: usize, longest: Duration| match longest {
        longest if longest > Duration::from_millis(500) => done >= least.min(3),
        _ => done >= 2001 || (done >= least && start.elapsed() >= time),
    };
    while !enough(times[0].len(), longest) {
        for (run, times) in runs.iter_mut().zip(&mut times) {
            let time = run();
            longest = longest.max(time);
            times.push(time);
        }
    }
    times.map(|mut times| {
        times.sort();
        times[times.len() / 2]
    })
}

/// Microseconds, with three digits or more.
pub fn micros(time: Duration) -> String {
    let us = time.as_secs_f64() * 1e6;
    match us {
        us if us < 10.0 => format!("{us:.2}"),
        us if us < 100.0 => format!("{us:.1}"),
        us => format!("{us:.0}"),
    }
}

/// With two digits or more.
pub fn ratio(a: f64, b: f64) -> String {
    let r = a / b.max(1e-9);
    if r < 10.0 {
        format!("{r:.1}")
    } else {
        format!("{r:.0}")
    }
}
