//! Two ways to do the same work, timed in turn.

use std::time::Duration;

pub const RUNS: usize = 20;

/// Runs both in turn, on the same arrays, and prints their medians and ratio.
pub fn report<A>(name: &str, arrays: &mut A, ours: impl Fn(&mut A) -> Duration, other: &str, theirs: impl Fn(&mut A) -> Duration) {
    let (mut our_times, mut their_times) = (Vec::new(), Vec::new());
    for _ in 0..RUNS {
        their_times.push(theirs(arrays));
        our_times.push(ours(arrays));
    }
    let (ours, theirs) = (median(our_times), median(their_times));
    println!("{name}: ours {ours:?}, {other} {theirs:?}, ratio {:.3}", ours.as_secs_f64() / theirs.as_secs_f64());
}

fn median(mut times: Vec<Duration>) -> Duration {
    times.sort_unstable();
    (times[RUNS / 2 - 1] + times[RUNS / 2]) / 2
}
