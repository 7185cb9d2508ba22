//! Tries of a pair that is equal in all but one thing.

use crate::cell::Place;
use crate::draw;
use crate::grid::{Cell, Grid};
use crate::pair::{Pair, samples};
use crate::told;
use compare::engine::Study;
use compare::engine::block::Record;
use compare::{Mix, Random};

pub const TRIES: u64 = 60;

/// How many steps are taken, what of a lively record is put otherwise in both studies, and which number of the named cell
/// does not count, being the one that is changed.
pub struct Trial<'a> {
    pub n: usize,
    pub put: &'a dyn Fn(&mut Record),
    pub apart: Option<Place>,
}

/// What is done to the second study.
pub type Change<'a> = &'a dyn Fn(&mut Random, &mut Study, Cell);

/// One step of lively studies.
pub const ONE_STEP: Trial = Trial {
    n: 1,
    put: &|_| {},
    apart: None,
};

/// A study of ordinary numbers on a small grid that has cells off its walls.
pub fn study(random: &mut Random, put: &dyn Fn(&mut Record)) -> Study {
    let sizes = [0; 3].map(|_| 3 + random.index(3));
    let mut record = draw::lively(random, sizes);
    put(&mut record);
    draw::study(random, &record, Mix::ORDINARY)
}

/// A region of all cells but the lowest plane and the highest, so that many a cell is beside its faces.
pub fn wide_region(record: &mut Record) {
    let [nx, ny, nz] = record.sizes;
    record.region.corners = [0, nx - 1, 0, ny - 1, 1, nz - 2];
}

impl Trial<'_> {
    /// The numbers of the named cell that differ at the end of a try, and what it was.
    fn differing(&self, seed: u64, change: Change) -> (Vec<Place>, String) {
        let mut random = Random::new(seed);
        let first = study(&mut random, self.put);
        let grid = Grid::of(&first.record().unwrap());
        let named = draw::named(&mut random, grid.sizes);
        let what = format!("try {seed}, {} steps, cell {named:?} of {grid:?}", self.n);
        let differing = told(&what, || {
            let mut second = first.clone();
            change(&mut random, &mut second, named);
            let mut pair = Pair::new([first, second], named);
            pair.step_all(&samples(&mut random, self.n));
            let mut differing = pair.differing();
            differing.retain(|place| Some(*place) != self.apart);
            differing
        });
        (differing, what)
    }

    /// In how many of the tries the named cell has other numbers at the end: in one at the least.
    pub fn seen(&self, name: &str, change: Change) -> String {
        let seeds = 0..TRIES;
        let seen = seeds.filter(|seed| !self.differing(*seed, change).0.is_empty());
        let seen = seen.count();
        assert!(seen > 0, "{name}: in no try");
        format!("{name} {seen}")
    }

    /// In no try has it.
    pub fn unseen(&self, name: &str, change: Change) {
        for seed in 0..TRIES {
            let (differing, what) = self.differing(seed, change);
            assert!(differing.is_empty(), "{name}, {what}: {differing:?} differ");
        }
    }
}
