//! The premise that neither run is refused: a stale id far away stops one of them, and the named cell is then another.

use crate::cell::differing;
use crate::draw;
use crate::grid::Grid;
use crate::pair::{Pair, samples};
use crate::pairs::{FARTHEST, sizes};
use crate::told;
use compare::difference::untouched;
use compare::engine::Study;
use compare::engine::block::Record;
use compare::judge::STALE_MATERIAL;
use compare::{Mix, Random, report};

const PAIRS: usize = 300;

/// Refused at every step, or at once as a run; nothing is written.
fn stopped(study: &Study, samples: &[f64], in_one_run: bool) -> Study {
    let mut after = study.clone();
    let answers: Vec<u32> = match in_one_run {
        true => vec![after.run(samples)],
        false => samples.iter().map(|sample| after.step(*sample)).collect(),
    };
    assert!(answers.iter().all(|n| *n == STALE_MATERIAL), "{answers:?}");
    assert!(untouched(study, &after), "refused, and written");
    after
}

/// An id at or above the built count, up to the largest.
fn stale(random: &mut Random, record: &Record) -> u32 {
    let built = u32::from(record.built_count);
    [built, built + 1 + random.below(20) as u32, u32::MAX][random.index(3)]
}

/// Two runs of n steps differ in the id of a cell that is farther than n. Where it is one of those that are built, the
/// named cell is equal; where it is stale, whether the named cell is another is the answer. None where a study has no such
/// cell, or nothing is built.
fn differs(seed: usize) -> Option<bool> {
    let mut random = Random::new(seed as u64);
    let n = 1 + seed % FARTHEST;
    let sizes = sizes(&mut random, n);
    let record = draw::record(&mut random, sizes, Mix::ORDINARY);
    let (grid, named) = (Grid::of(&record), draw::named(&mut random, sizes));
    let far: Vec<usize> = grid.beyond(named, n).map(|cell| grid.at(cell)).collect();
    if far.is_empty() || record.built_count == 0 {
        return None;
    }
    let far = far[random.index(far.len())];
    let first = draw::study(&mut random, &record, Mix::ORDINARY);
    let [mut second, mut refused] = [first.clone(), first.clone()];
    second.ids[far] = random.below(record.built_count.into()) as u32;
    refused.ids[far] = stale(&mut random, &record);
    let samples = samples(&mut random, n);
    told(format!("pair of seed {seed}, n = {n}, {grid:?}"), || {
        let refused = stopped(&refused, &samples, random.once_in(2));
        let mut pair = Pair::new([first, second], named);
        pair.run_each([&samples; 2]);
        pair.assert_equal();
        Some(!differing(&pair.both[0], &refused, pair.at).is_empty())
    })
}

#[test]
fn a_stale_id_far_away_stops_a_run() {
    let tried: Vec<bool> = (0..PAIRS).filter_map(differs).collect();
    let other = tried.iter().filter(|other| **other).count();
    report(&format!(
        "a stale id farther than n: {} runs refused, the named cell is another in {other}",
        tried.len()
    ));
    assert!(tried.len() > PAIRS / 4, "too few runs");
    assert!(other > tried.len() / 2, "too few cells that are others");
}
