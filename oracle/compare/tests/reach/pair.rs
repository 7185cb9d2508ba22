//! Two studies that are stepped alike, and the cell that is looked at in both.

use crate::cell::{Place, differing};
use crate::grid::{Cell, Grid};
use compare::Random;
use compare::engine::Study;
use compare::sound::ODD;

#[derive(Clone)]
pub struct Pair {
    pub both: [Study; 2],
    pub named: Cell,
    /// Where the named cell stands in a store.
    pub at: usize,
    pub steps: usize,
}

impl Pair {
    pub fn new(both: [Study; 2], named: Cell) -> Self {
        let at = Grid::of(&both[0].record().unwrap()).at(named);
        Self {
            both,
            named,
            at,
            steps: 0,
        }
    }

    /// A step of both, each with its own sample; neither is refused.
    pub fn step_each(&mut self, samples: [f64; 2]) {
        for (study, sample) in self.both.iter_mut().zip(samples) {
            assert_eq!(study.step(sample), 0, "a step is refused");
        }
        self.steps += 1;
    }

    pub fn step(&mut self, sample: f64) {
        self.step_each([sample; 2]);
    }

    pub fn step_all(&mut self, samples: &[f64]) {
        for sample in samples {
            self.step(*sample);
        }
    }

    /// As many steps as there are samples, in one call, each with its own ones.
    pub fn run_each(&mut self, samples: [&[f64]; 2]) {
        for (study, samples) in self.both.iter_mut().zip(samples) {
            assert_eq!(study.run(samples), 0, "a run is refused");
        }
        self.steps += samples[0].len();
    }

    /// The numbers of the named cell in which the two differ.
    pub fn differing(&self) -> Vec<Place> {
        let [a, b] = &self.both;
        differing(a, b, self.at)
    }

    /// All numbers of the named cell are equal.
    pub fn assert_equal(&self) {
        if let Some(place) = self.differing().first() {
            let [a, b] = self.both.each_ref();
            let [a, b] = [a, b].map(|study| place.of(study, self.at).to_bits());
            let (steps, named, Place { store, part }) = (self.steps, self.named, place);
            panic!(
                "after {steps} steps, cell {named:?}: number {part} of {store:?} is {a:016X} and {b:016X}"
            );
        }
    }
}

/// Samples for so many steps, NaNs and infinities among them.
pub fn samples(random: &mut Random, n: usize) -> Vec<f64> {
    (0..n).map(|_| random.number(1.0, ODD)).collect()
}

/// Another number than x, of its size or near 1.
pub fn another(x: f64) -> f64 {
    x + x.abs() + 0.5
}
