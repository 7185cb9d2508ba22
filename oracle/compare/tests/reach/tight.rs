//! That n steps carry a change of one number as far as n, and one step less does not.

use crate::cell::Place;
use crate::draw;
use crate::grid::{AXES, Cell, Grid};
use crate::pair::{Pair, another, samples};
use crate::pairs::FARTHEST;
use crate::told;
use compare::fill::Store;
use compare::{Mix, Random, report};
use std::collections::BTreeMap;

pub const TRIES: u64 = 72;

/// The cell that is changed in the second study, and the one that is looked at.
#[derive(Debug, Clone, Copy)]
pub struct Way {
    pub grid: Grid,
    pub changed: Cell,
    pub named: Cell,
}

impl Way {
    pub fn distance(&self) -> usize {
        self.grid.distance(self.named, self.changed)
    }

    /// Two studies of ordinary numbers that differ in one number of the changed cell.
    pub fn pair(&self, random: &mut Random, place: Place) -> Pair {
        let mut record = draw::record(random, self.grid.sizes, Mix::ORDINARY);
        record.periodic = self.grid.periodic;
        let first = draw::study(random, &record, Mix::ORDINARY);
        let mut second = first.clone();
        let cell = self.grid.at(self.changed);
        place.put(&mut second, cell, another(place.of(&first, cell)));
        Pair::new([first, second], self.named)
    }
}

/// The numbers of E and H by turns.
pub fn field(seed: u64) -> Place {
    Place {
        store: [Store::E, Store::H][seed as usize / 3 % 2],
        part: seed as usize % 3,
    }
}

/// From a cell n higher or lower on an axis, on the straight way or round its end.
struct Case {
    axis: usize,
    n: usize,
    higher: bool,
    round: bool,
}

impl Case {
    fn all() -> Vec<Case> {
        let mut cases = Vec::new();
        for axis in 0..3 {
            for (higher, round) in [(true, false), (false, false), (true, true), (false, true)] {
                cases.extend((1..=FARTHEST).map(|n| Case {
                    axis,
                    n,
                    higher,
                    round,
                }));
            }
        }
        cases
    }

    fn side(&self) -> &'static str {
        if self.higher { "above" } else { "below" }
    }

    fn name(&self) -> String {
        let way = ["straight", "round the end"][usize::from(self.round)];
        let (n, axis) = (self.n, AXES[self.axis]);
        format!("from {n} {} on {axis}, {way}", self.side())
    }

    /// The axis is longer than twice the way, so that there is no shorter one and only one that is as short.
    fn way(&self, random: &mut Random) -> Way {
        let Case { axis, n, .. } = *self;
        let spare = random.index(3);
        let mut sizes = [0; 3].map(|_| 1 + random.index(4));
        let mut periodic = [0; 3].map(|_| random.once_in(2));
        sizes[axis] = 2 * n + spare + if self.round { 1 } else { 3 };
        periodic[axis] |= self.round;
        let count = sizes[axis];
        let mut named = draw::named(random, sizes);
        named[axis] = match (self.round, self.higher) {
            (true, true) => count - 1 - random.index(n),
            (true, false) => random.index(n),
            (false, _) => n + 1 + random.index(spare + 1),
        };
        let mut changed = named;
        changed[axis] = (named[axis] + if self.higher { n } else { count - n }) % count;
        Way {
            grid: Grid { sizes, periodic },
            changed,
            named,
        }
    }

    /// Whether the change is there after n steps; before the last of them it never is.
    fn reaches(&self, seed: u64) -> bool {
        let mut random = Random::new(seed);
        let way = self.way(&mut random);
        told(format!("{}, try {seed}, {way:?}", self.name()), || {
            assert_eq!(way.distance(), self.n);
            let mut pair = way.pair(&mut random, field(seed));
            let samples = samples(&mut random, self.n);
            let (last, before) = samples.split_last().unwrap();
            pair.step_all(before);
            pair.assert_equal();
            pair.step(*last);
            !pair.differing().is_empty()
        })
    }
}

#[test]
fn n_steps_carry_a_change_as_far_as_n() {
    let mut reached: BTreeMap<String, u64> = BTreeMap::new();
    let cases = Case::all();
    for case in &cases {
        let seeds: Vec<u64> = (0..TRIES).filter(|seed| case.reaches(*seed)).collect();
        assert!(!seeds.is_empty(), "{}: in no try", case.name());
        for seed in seeds {
            let name = format!("{:?} from {}", field(seed).store, case.side());
            *reached.entry(name).or_default() += 1;
        }
    }
    report(&format!(
        "tight: each of {} ways carries a change; of {TRIES} tries on each {reached:?}",
        cases.len()
    ));
}

/// A cell one higher on one axis and one lower on another, off the walls.
fn diagonal(random: &mut Random, up: usize, down: usize) -> Way {
    let sizes = [0; 3].map(|_| 3 + random.index(3));
    let periodic = [0; 3].map(|_| random.once_in(2));
    let named = sizes.map(|count| 1 + random.index(count - 2));
    let mut changed = named;
    changed[up] += 1;
    changed[down] -= 1;
    Way {
        grid: Grid { sizes, periodic },
        changed,
        named,
    }
}

/// So the sum of the differences would be too large a distance.
#[test]
fn higher_on_one_axis_and_lower_on_another_is_one_step() {
    for (up, down) in [(0, 1), (0, 2), (1, 0), (1, 2), (2, 0), (2, 1)] {
        let name = format!("from +1 on {} and -1 on {}", AXES[up], AXES[down]);
        let reaches = |seed| {
            let mut random = Random::new(seed);
            let way = diagonal(&mut random, up, down);
            told(format!("{name}, try {seed}, {way:?}"), || {
                assert_eq!(way.distance(), 1);
                let mut pair = way.pair(&mut random, field(seed));
                pair.step(0.5);
                pair.differing().iter().any(|place| place.store == Store::E)
            })
        };
        assert!((0..TRIES).any(reaches), "{name}: in no try");
    }
}
