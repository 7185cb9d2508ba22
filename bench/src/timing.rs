//! Rounds of both engines in turn, and a line for each study.

use crate::clock::{self, best_and_median, by_turns};
use crate::studies::Timed;
use compare::difference::first_difference;
use compare::engine::Study;
use compare::theirs::Theirs;

/// Times a study; both sides must hold the same numbers at its end.
pub fn row(study: &Timed) -> String {
    let (mut ours, mut theirs) = set_up(study);
    let (mut our_times, mut their_times) = (Vec::new(), Vec::new());
    for round in 0..study.rounds {
        refill(study, &mut ours, &mut theirs);
        let samples = samples(round * study.steps, study.steps);
        let our_run = || assert_eq!(ours.run(&samples), 0);
        let [our_time, their_time] = by_turns(round, our_run, || theirs.run(&samples));
        our_times.push(our_time);
        their_times.push(their_time);
        assert!(!has_subnormals(&ours), "{}", study.name);
    }
    theirs.read();
    if let Some(difference) = first_difference(theirs.expected(), &ours) {
        panic!("{}: {difference}", study.name);
    }
    let each = nanoseconds(study);
    let ours = best_and_median(our_times, each);
    let theirs = best_and_median(their_times, each);
    clock::row(study.name, ours, theirs, theirs[0] / ours[0], study.target)
}

/// Times steps taken one by one beside as many in a run; both must come to the same numbers.
pub fn single_row(study: &Timed) -> String {
    let (mut single, _) = set_up(study);
    let mut run = single.clone();
    let (mut single_times, mut run_times) = (Vec::new(), Vec::new());
    for round in 0..study.rounds {
        for call in &study.fields {
            single.apply(call);
            run.apply(call);
        }
        let samples = samples(round * study.steps, study.steps);
        let one_by_one = || samples.iter().for_each(|x| assert_eq!(single.step(*x), 0));
        let in_a_run = || assert_eq!(run.run(&samples), 0);
        let [single_time, run_time] = by_turns(round, one_by_one, in_a_run);
        single_times.push(single_time);
        run_times.push(run_time);
        assert!(!has_subnormals(&run), "{}", study.name);
    }
    assert_eq!(first_difference(&run, &single), None, "{}", study.name);
    let each = nanoseconds(study);
    let single = best_and_median(single_times, each);
    let run = best_and_median(run_times, each);
    clock::row(study.name, single, run, single[0] / run[0], study.target)
}

/// Nanoseconds for a cell and step, in a second that a round takes.
fn nanoseconds(study: &Timed) -> f64 {
    let cells: usize = study.sizes.iter().product();
    1e9 / (cells * study.steps) as f64
}

fn set_up(study: &Timed) -> (Study, Theirs) {
    let (sizes, slots, spacings) = (study.sizes, study.pole_slots, study.spacings);
    let mut ours = Study::lent(sizes, slots);
    assert_eq!(ours.open(sizes, slots, 0, spacings), 0);
    let mut theirs = Theirs::open(sizes, slots, 0, spacings);
    for call in &study.calls {
        let answers = [ours.apply(call), theirs.apply(call)];
        assert_eq!(answers.map(|a| a.refusal), [0, 0], "{call:?}");
    }
    (ours, theirs)
}

/// Before a round the fields hold ordinary numbers again: what an absorber has left of them after
/// thousands of steps would be subnormal, and slow.
fn refill(study: &Timed, ours: &mut Study, theirs: &mut Theirs) {
    theirs.read();
    for call in &study.fields {
        ours.apply(call);
        theirs.apply(call);
    }
}

fn has_subnormals(study: &Study) -> bool {
    let mut numbers = study.stores().into_iter().flat_map(|(_, store)| store);
    numbers.any(|x| x.is_subnormal())
}

/// A wave of about twenty samples a period.
fn samples(first: usize, count: usize) -> Vec<f64> {
    let at = |n: usize| (0.3 * n as f64 + 0.1).sin();
    (first..first + count).map(at).collect()
}
