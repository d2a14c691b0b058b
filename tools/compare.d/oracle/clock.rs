//! Two ways of doing the same, timed in turns.

use std::time::Instant;

pub const ROUNDS: usize = 21;

/// The median of each over rounds that take turns, in nanoseconds a call. One round of each
/// before them is not counted.
pub fn beside(calls: usize, mut original: impl FnMut(), mut ours: impl FnMut()) -> (f64, f64) {
    let (mut first, mut second) = (Vec::new(), Vec::new());
    for _ in 0..=ROUNDS {
        first.push(timed(calls, &mut original));
        second.push(timed(calls, &mut ours));
    }
    (median(&mut first[1..]), median(&mut second[1..]))
}

fn timed(calls: usize, work: &mut impl FnMut()) -> f64 {
    let start = Instant::now();
    work();
    start.elapsed().as_nanos() as f64 / calls as f64
}

fn median(times: &mut [f64]) -> f64 {
    times.sort_by(f64::total_cmp);
    times[times.len() / 2]
}

/// The one line of a measurement.
pub fn tell(part: &str, what: &str, calls: usize, (original, ours): (f64, f64)) {
    let ratio = original / ours;
    println!(
        "{part}: {what}, {calls} calls, median of {ROUNDS} rounds: \
         original {original:.1} ns, ours {ours:.1} ns, {ratio:.1} times as fast"
    );
}
