//! Time taken, and a line of it.

use std::time::Instant;

pub fn seconds(work: impl FnOnce()) -> f64 {
    let start = Instant::now();
    work();
    start.elapsed().as_secs_f64()
}

/// The times of two works; in every second round the other one goes first.
#[cfg(original)]
pub fn by_turns(round: usize, one: impl FnOnce(), other: impl FnOnce()) -> [f64; 2] {
    if round.is_multiple_of(2) {
        let time = seconds(one);
        [time, seconds(other)]
    } else {
        let time = seconds(other);
        [seconds(one), time]
    }
}

/// The best of some times and their median, in units of which `each` make a second.
pub fn best_and_median(mut times: Vec<f64>, each: f64) -> [f64; 2] {
    times.sort_by(f64::total_cmp);
    [times[0], times[times.len() / 2]].map(|seconds| seconds * each)
}

pub fn heading(names: [&str; 5]) -> String {
    let [what, ours, theirs, ratio, target] = names;
    format!("{what:<44}{ours:>16}{theirs:>18}{ratio:>9}{target:>9}")
}

/// Best and median of ours and of theirs, their ratio and its target, where it has one.
pub fn row(
    name: &str,
    ours: [f64; 2],
    theirs: [f64; 2],
    ratio: f64,
    target: Option<f64>,
) -> String {
    let [ours, theirs] = [ours, theirs].map(shown);
    let target = target.map_or("-".into(), |target| format!("{target:.1}"));
    format!("{name:<44}{ours:>16}{theirs:>18}{ratio:>9.2}{target:>9}")
}

pub fn shown([best, median]: [f64; 2]) -> String {
    format!("{best:.2} ({median:.2})")
}
