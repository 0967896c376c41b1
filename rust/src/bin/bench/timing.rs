//! Alternating rounds and their medians.

use std::hint::black_box;
use std::time::Instant;

const ROUNDS: usize = 501;
/// How long the slower side of a round lasts, in seconds. It is short, so that other work on
/// the machine breaks into few rounds, and those do not reach the median.
const ROUND: f64 = 0.001;

/// The median seconds of one call of each, and the median of the rounds' ratios.
pub struct Comparison {
    pub seconds: [f64; 2],
    pub ratio: f64,
}

/// Times both, by turns. The one that goes first changes from round to round.
pub fn compare<T, U>(mut one: impl FnMut() -> T, mut other: impl FnMut() -> U) -> Comparison {
    let single = seconds(&mut one, 20).max(seconds(&mut other, 20));
    let calls = (ROUND / single).ceil() as u32;
    let mut times = [Vec::new(), Vec::new()];
    for round in 0..ROUNDS {
        if round % 2 == 0 {
            times[0].push(seconds(&mut one, calls));
            times[1].push(seconds(&mut other, calls));
        } else {
            times[1].push(seconds(&mut other, calls));
            times[0].push(seconds(&mut one, calls));
        }
    }
    let ratios = times[0]
        .iter()
        .zip(&times[1])
        .map(|(one, other)| one / other);
    Comparison {
        ratio: median(ratios.collect()),
        seconds: times.map(median),
    }
}

/// The seconds that one of so many calls takes.
fn seconds<T>(run: &mut impl FnMut() -> T, calls: u32) -> f64 {
    let start = Instant::now();
    for _ in 0..calls {
        black_box(run());
    }
    start.elapsed().as_secs_f64() / f64::from(calls)
}

fn median(mut values: Vec<f64>) -> f64 {
    values.sort_by(f64::total_cmp);
    values[values.len() / 2]
}
