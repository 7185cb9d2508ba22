//! Random studies: a history of calls, each handed to the engine and to the original.

mod poles;
mod tally;

use std::sync::Mutex;
use std::sync::atomic::{AtomicU64, Ordering};
use std::thread;

use crate::call::Call;
use crate::choose::Chooser;
use crate::difference::first_difference;
use crate::engine::{Answer, Study};
use crate::theirs::Theirs;
use crate::{Random, complaint, judge};

pub use tally::Tally;

/// Plays the studies of the seeds below a number on all cores. Of those that fail, it is the lowest seed's
/// whose difference is told.
pub fn play_all(studies: u64) -> Tally {
    let next = AtomicU64::new(0);
    let failed = Mutex::new((studies, String::new()));
    let work = || {
        let mut tally = Tally::default();
        loop {
            let seed = next.fetch_add(1, Ordering::Relaxed);
            if seed >= failed.lock().unwrap().0 {
                return tally;
            }
            if let Some(said) = complaint(|| play(seed, &mut tally)) {
                let mut failed = failed.lock().unwrap();
                if seed < failed.0 {
                    *failed = (seed, said);
                }
            }
        }
    };
    let mut all = Tally::default();
    thread::scope(|scope| {
        let cores = thread::available_parallelism().map_or(1, |n| n.get());
        let workers: Vec<_> = (0..cores).map(|_| scope.spawn(work)).collect();
        for worker in workers {
            all.join(worker.join().unwrap());
        }
    });
    let (lowest, said) = failed.into_inner().unwrap();
    assert!(lowest == studies, "{said}");
    all
}

/// Plays the study of a seed. A difference says the seed, the calls up to it and the first number.
pub fn play(seed: u64, tally: &mut Tally) {
    let mut random = Random::new(seed);
    let chooser = Chooser::new(&mut random);
    let mut history = Vec::new();
    let said = complaint(|| {
        Pair::open(&chooser, &mut history).play(&chooser, &mut random, &mut history, tally)
    });
    if let Some(said) = said {
        let calls: String = history.iter().map(|call| format!("  {call:?}\n")).collect();
        panic!("study of seed {seed}: {said}\nafter the calls\n{calls}");
    }
    tally.studies[chooser.constants] += 1;
}

/// The engine and the original with the same study.
struct Pair {
    ours: Study,
    theirs: Theirs,
}

impl Pair {
    fn open(chooser: &Chooser, history: &mut Vec<Call>) -> Self {
        let (sizes, pole_slots) = (chooser.sizes, chooser.pole_slots);
        let call = chooser.opening();
        let mut ours = Study::lent(sizes, pole_slots);
        assert_eq!(judge::refusal(&ours, &call), 0);
        history.push(call.clone());
        let answer = ours.apply(&call);
        let pair = Self {
            ours,
            theirs: Theirs::open(sizes, pole_slots, chooser.constants, chooser.spacings),
        };
        pair.check(&Answer::new(0, 0.0), &answer);
        pair
    }

    fn play(
        mut self,
        chooser: &Chooser,
        random: &mut Random,
        history: &mut Vec<Call>,
        tally: &mut Tally,
    ) {
        for call in chooser.first(random) {
            self.both(call, history, tally);
        }
        for done in 0..chooser.calls {
            let record = self.theirs.expected().record().unwrap();
            let call = chooser.next(random, &record, done);
            self.both(call, history, tally);
        }
    }

    /// One call on both, and everything compared.
    fn both(&mut self, call: Call, history: &mut Vec<Call>, tally: &mut Tally) {
        history.push(call.clone());
        tally.count_block(&call, &self.ours);
        let expected = self.theirs.apply(&call);
        let got = self.ours.apply(&call);
        self.check(&expected, &got);
        tally.count(&call, got.refusal, self.theirs.expected());
    }

    fn check(&self, expected: &Answer, got: &Answer) {
        assert_eq!(got.refusal, expected.refusal, "refusal");
        assert!(
            got.agrees(expected),
            "further answer {:016X} in place of {:016X}, or another save",
            got.further.to_bits(),
            expected.further.to_bits()
        );
        if let Some(difference) = first_difference(self.theirs.expected(), &self.ours) {
            panic!("{difference}");
        }
        let same = self.ours.block == self.theirs.expected().block;
        assert!(same, "a NaN in the block has other bits");
    }
}
