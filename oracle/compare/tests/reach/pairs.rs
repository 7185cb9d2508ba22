//! Random pairs: all that is farther than n is another in the second study, and after n steps the named cell is not.

use crate::draw;
use crate::grid::{Cell, Grid};
use crate::pair::{Pair, samples};
use crate::tally::Tally;
use crate::told;
use compare::choose::{LONG_ROW, LONG_SIDE, row_axis};
use compare::engine::block::Record;
use compare::fill::Store;
use compare::{Mix, Random, variable};

const PAIRS: u64 = 7_000;
/// The largest n.
pub const FARTHEST: usize = 6;

/// What a pair is drawn from.
pub struct Case {
    pub n: usize,
    pub grid: Grid,
    pub record: Record,
    pub named: Cell,
    pub samples: Vec<f64>,
    pub in_one_run: bool,
    mix: Mix,
}

/// Few cells on each axis, and then one axis that is long enough for some cell to be farther than n, most of the time on
/// a periodic axis too; or a line of many cells.
pub fn sizes(random: &mut Random, n: usize) -> [usize; 3] {
    let mut sizes = [0; 3].map(|_| [1 + random.index(3), 1 + random.index(8)][random.index(2)]);
    let axis = random.index(3);
    match random.below(12) {
        0 => {}
        1 => {
            sizes = sizes.map(|count| count.min(3));
            sizes[axis] = LONG_SIDE + 1 + random.index(40);
        }
        2 | 3 => sizes[row_axis(&sizes)] = LONG_ROW + random.index(9),
        _ => sizes[axis] = n + 2 + random.index(2 * n + 6),
    }
    sizes
}

/// Most studies have ordinary numbers alone, or next to it: where all is NaN, nothing can be seen.
fn mix(random: &mut Random) -> Mix {
    Mix {
        odd: [0, 0, 0, 5, 50][random.index(5)],
        zeros: [0, 0, 0, 300, 950][random.index(5)],
    }
}

impl Case {
    fn new(random: &mut Random, n: usize) -> Self {
        let mix = mix(random);
        let sizes = sizes(random, n);
        let mut record = draw::record(random, sizes, mix);
        if random.once_in(8) {
            record.steps = u32::MAX - n as u32;
        }
        Self {
            n,
            grid: Grid::of(&record),
            record,
            named: draw::named(random, sizes),
            samples: samples(random, n),
            in_one_run: random.once_in(2),
            mix,
        }
    }

    /// What is far away is odd in many ordinary studies too: a NaN there would be seen in every number that it comes to.
    /// So are the tables in some, and c at the named cell.
    fn pair(&self, random: &mut Random) -> Pair {
        let mut first = draw::study(random, &self.record, self.mix);
        if random.once_in(4) {
            let mix = Mix { odd: 50, zeros: 0 };
            draw::fill(random, Store::Tables, mix, &mut first);
            let c = [2, 5][random.index(2)];
            let at = self.grid.in_tables(self.named, random.index(3), c);
            first.tables[at] = random.nan();
        }
        let far = Mix { odd: 500, zeros: 0 };
        let mix = [self.mix, far][random.index(2)];
        let mut second = draw::changed_beyond(random, &first, self.named, self.n, mix);
        for store in second.stores_mut() {
            draw::put_other_nans(random, store);
        }
        Pair::new([first, second], self.named)
    }

    /// The steps of both, with samples that are equal.
    fn step(&self, random: &mut Random, pair: &mut Pair) {
        let mut others = self.samples.clone();
        draw::put_other_nans(random, &mut others);
        if self.in_one_run {
            return pair.run_each([&self.samples, &others]);
        }
        for (sample, other) in self.samples.iter().zip(others) {
            pair.step_each([*sample, other]);
        }
    }
}

fn play(seed: u64, tally: &mut Tally) {
    let mut random = Random::new(seed);
    let case = Case::new(&mut random, seed as usize % (FARTHEST + 1));
    let Case { n, grid, .. } = case;
    told(format!("pair of seed {seed}, n = {n}, {grid:?}"), || {
        let mut pair = case.pair(&mut random);
        let start = pair.clone();
        case.step(&mut random, &mut pair);
        pair.assert_equal();
        for study in &pair.both {
            let steps = study.record().unwrap().steps - case.record.steps;
            assert_eq!(steps as usize, n, "steps in the clock");
        }
        tally.count(&case, &start, &pair);
    });
}

#[test]
fn random_pairs() {
    let mut tally = Tally::default();
    if let Some(seed) = variable("CICHOWIEJ_SEED") {
        play(seed, &mut tally);
        return tally.report();
    }
    let pairs = variable("CICHOWIEJ_PAIRS").unwrap_or(PAIRS);
    for seed in 0..pairs {
        play(seed, &mut tally);
    }
    tally.report();
    if pairs >= PAIRS {
        assert_eq!(tally.missing(), [""; 0], "too few pairs");
    }
}
