//! Functions timed in turn, so that what disturbs the machine disturbs all of them.

use std::time::Instant;

/// How long one operation took, in nanoseconds: the median of all rounds, and the distance between the quartiles.
#[derive(Clone, Copy)]
pub struct Time {
    pub median: f64,
    pub spread: f64,
}

impl Time {
    /// The time of one part of an operation that has so many.
    pub fn per(self, parts: u32) -> Time {
        let parts = f64::from(parts);
        Time { median: self.median / parts, spread: self.spread / parts }
    }
}

const ROUNDS: usize = 201;
/// A round takes about so long: short, so that few of them are disturbed.
const ROUND_NS: f64 = 250_000.0;

pub fn in_turn<const N: usize>(mut runs: [&mut dyn FnMut(); N]) -> [Time; N] {
    let counts = runs.each_mut().map(|run| runs_in_round(*run));
    let mut times = [const { Vec::new() }; N];
    for _ in 0..ROUNDS {
        for at in 0..N {
            times[at].push(nanoseconds(runs[at], counts[at]));
        }
    }
    times.map(summed_up)
}

fn runs_in_round(run: &mut dyn FnMut()) -> u32 {
    let tried = (0..5).map(|_| nanoseconds(run, 3));
    let once = tried.fold(f64::INFINITY, f64::min).max(1.0);
    (ROUND_NS / once).clamp(1.0, 1_000_000.0) as u32
}

fn nanoseconds(run: &mut dyn FnMut(), runs: u32) -> f64 {
    let start = Instant::now();
    for _ in 0..runs {
        run();
    }
    start.elapsed().as_nanos() as f64 / f64::from(runs)
}

fn summed_up(mut times: Vec<f64>) -> Time {
    times.sort_by(f64::total_cmp);
    let at = |part: usize| times[times.len() * part / 4];
    Time { median: at(2), spread: at(3) - at(1) }
}
