//! Times of calls. Each round times a batch of every call, beginning with
//! another one each time, so that a change of the machine's speed meets all.

use std::time::Instant;

/// Rounds of each comparison.
pub const ROUNDS: usize = 1_001;

/// A call, with how often it is made in a batch.
pub type Timed<'a> = (usize, &'a mut dyn FnMut());

/// The time of one call of each, in nanoseconds: the medians over all rounds.
pub fn medians_of(mut timed: Vec<Timed>) -> Vec<f64> {
    let mut times = vec![Vec::new(); timed.len()];
    for round in 0..ROUNDS {
        for turn in 0..timed.len() {
            let next = (round + turn) % timed.len();
            let (calls, call) = &mut timed[next];
            times[next].push(batch(*calls, call));
        }
    }
    times.into_iter().map(median).collect()
}

/// The same where all are called equally often.
pub fn medians<const COUNT: usize>(calls: usize, timed: [&mut dyn FnMut(); COUNT]) -> [f64; COUNT] {
    let times = medians_of(timed.map(|call| (calls, call)).into());
    std::array::from_fn(|number| times[number])
}

/// The time of one call in a batch.
fn batch(calls: usize, call: &mut dyn FnMut()) -> f64 {
    let started = Instant::now();
    for _ in 0..calls {
        call();
    }
    started.elapsed().as_nanos() as f64 / calls as f64
}

fn median(mut times: Vec<f64>) -> f64 {
    times.sort_by(f64::total_cmp);
    times[times.len() / 2]
}

/// The line `a + b * length` that the costs at these lengths lie nearest to: a,
/// b, and how far the furthest lies from it, as a part of its cost.
pub fn line(points: &[(f64, f64)]) -> (f64, f64, f64) {
    // Least squares of (a + b * length) / cost - 1.
    let sum = |term: fn(f64, f64) -> f64| -> f64 {
        let terms = points
            .iter()
            .map(|(length, cost)| term(1.0 / cost, length / cost));
        terms.sum()
    };
    let [uu, uv, vv] = [sum(|u, _| u * u), sum(|u, v| u * v), sum(|_, v| v * v)];
    let [u, v] = [sum(|u, _| u), sum(|_, v| v)];
    let below = uu * vv - uv * uv;
    let (a, b) = ((u * vv - v * uv) / below, (v * uu - u * uv) / below);
    let off = |(length, cost): &(f64, f64)| ((a + b * length) / cost - 1.0).abs();
    (a, b, points.iter().map(off).fold(0.0, f64::max))
}
