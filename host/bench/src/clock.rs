//! Times of several sides, sampled in turn so that what disturbs the machine disturbs each of them.

use std::hint::black_box;
use std::sync::atomic::{AtomicBool, Ordering};
use std::time::{Duration, Instant};

static QUICK: AtomicBool = AtomicBool::new(false);

pub fn set_quick(quick: bool) {
    QUICK.store(quick, Ordering::Relaxed);
}

/// The least time of a sample, and how many are taken.
fn plan() -> (Duration, usize) {
    if QUICK.load(Ordering::Relaxed) { (Duration::from_micros(300), 7) } else { (Duration::from_millis(2), 31) }
}

/// How many samples are taken where one call takes longer than the least time of a sample.
const fn fewer(count: usize) -> usize {
    count.div_ceil(3)
}

/// How samples are taken, in words.
pub fn sampling() -> String {
    let (least, count) = plan();
    format!(
        "a sample is at least {} ms of calls; times
are the best of {count} samples ({} where a call takes longer)",
        least.as_micros() as f64 / 1e3,
        fewer(count)
    )
}

/// The time of one call, in nanoseconds.
#[derive(Clone, Copy)]
pub struct Times {
    pub best: f64,
    pub median: f64,
}

impl Times {
    pub fn of(mut samples: Vec<f64>) -> Self {
        samples.sort_by(f64::total_cmp);
        Self { best: samples[0], median: samples[samples.len() / 2] }
    }

    /// What one side takes longer than another that was sampled in turn with it: by the best times, and the median of the differences.
    pub fn more(side: &[f64], other: &[f64]) -> Self {
        let best = |samples: &[f64]| Self::of(samples.to_vec()).best;
        let each = side.iter().zip(other).map(|(one, other)| one - other);
        Self { best: best(side) - best(other), median: Self::of(each.collect()).median }
    }
}

/// How many samples are taken of something that was timed elsewhere.
pub fn samples() -> usize {
    plan().1
}

/// A result that counts as used.
pub fn used<T>(value: T) {
    black_box(value);
}

/// Times each side. Each is called before it is timed, so that memory and predictors are warm.
pub fn race<const N: usize>(sides: [&mut dyn FnMut(); N]) -> [Times; N] {
    sampled(sides, 1).map(Times::of)
}

/// The samples of each side in the order in which they are taken, so many times as many as usual.
pub fn sampled<const N: usize>(mut sides: [&mut dyn FnMut(); N], more: usize) -> [Vec<f64>; N] {
    let (least, count) = plan();
    let count = count * more;
    let rounds: Vec<u32> = sides.iter_mut().map(|side| rounds(side, least)).collect();
    let slow = rounds.iter().all(|&rounds| rounds == 1);
    let count = if slow { fewer(count) } else { count };
    let mut samples = [(); N].map(|()| Vec::with_capacity(count));
    for _ in 0..count {
        for (at, side) in sides.iter_mut().enumerate() {
            let start = Instant::now();
            for _ in 0..rounds[at] {
                side();
            }
            samples[at].push(start.elapsed().as_nanos() as f64 / f64::from(rounds[at]));
        }
    }
    samples
}

/// So many calls that they take the least time of a sample.
fn rounds(side: &mut dyn FnMut(), least: Duration) -> u32 {
    side();
    let start = Instant::now();
    let mut rounds = 0;
    while start.elapsed() < least {
        side();
        rounds += 1;
    }
    rounds
}

/// A time with three digits.
pub fn shown(nanoseconds: f64) -> String {
    let (value, unit) = match nanoseconds {
        t if t < 1e3 => (t, "ns"),
        t if t < 1e6 => (t / 1e3, "µs"),
        t => (t / 1e6, "ms"),
    };
    let digits = if value < 10.0 { 2 } else { usize::from(value < 100.0) };
    format!("{value:.digits$} {unit}")
}

/// Ours over another's, best and median.
pub fn ratio(ours: Times, other: Times) -> String {
    format!("{} / {}", short(ours.best / other.best), short(ours.median / other.median))
}

fn short(ratio: f64) -> String {
    if ratio < 0.01 { format!("{ratio:.1e}") } else { format!("{ratio:.2}") }
}
