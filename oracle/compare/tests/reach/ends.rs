//! That a change goes round the end of an axis where it is periodic, and only there.

use crate::draw;
use crate::grid::{AXES, Grid};
use crate::pair::Pair;
use crate::tight::{TRIES, Way, field};
use crate::told;
use compare::{Random, report};

/// The named cell at one end of a periodic axis, the changed one at the other.
fn ends(random: &mut Random, axis: usize, first: bool) -> Way {
    let mut sizes = [0; 3].map(|_| 1 + random.index(4));
    let mut periodic = [0; 3].map(|_| random.once_in(2));
    sizes[axis] = 4 + random.index(5);
    periodic[axis] = true;
    let [mut named, mut changed] = [draw::named(random, sizes); 2];
    let last = sizes[axis] - 1;
    (named[axis], changed[axis]) = if first { (0, last) } else { (last, 0) };
    Way {
        grid: Grid { sizes, periodic },
        changed,
        named,
    }
}

/// The same pair with walls at the ends of an axis.
fn walled(pair: &Pair, axis: usize) -> Pair {
    let both = pair.both.each_ref().map(|study| {
        let (mut study, mut record) = (study.clone(), study.record().unwrap());
        record.periodic[axis] = false;
        study.block = record.given();
        study
    });
    Pair::new(both, pair.named)
}

/// Whether a change at one end is seen at the other after one step and, with walls, after as many as the distance then
/// is; before the last of these it never is.
fn round_and_across(axis: usize, first: bool, seed: u64) -> [bool; 2] {
    let mut random = Random::new(seed);
    let way = ends(&mut random, axis, first);
    told(format!("axis {axis}, try {seed}, {way:?}"), || {
        let mut straight = way;
        straight.grid.periodic[axis] = false;
        let last = way.grid.sizes[axis] - 1;
        assert_eq!([way.distance(), straight.distance()], [1, last]);
        let mut pair = way.pair(&mut random, field(seed));
        let mut walled = walled(&pair, axis);
        pair.step(0.5);
        for _ in 1..last {
            walled.step(0.5);
            walled.assert_equal();
        }
        walled.step(0.5);
        [pair, walled].map(|pair| !pair.differing().is_empty())
    })
}

/// How often it is, of all tries. Across, a change comes from the last cell to the first; the other way it ends at the
/// wall, where E along it becomes 0 and an H without its neighbour stays.
fn counted(axis: usize, first: bool) -> String {
    let [mut round, mut across] = [0; 2];
    for seed in 0..TRIES {
        let reached = round_and_across(axis, first, seed);
        round += u64::from(reached[0]);
        across += u64::from(reached[1]);
    }
    let end = if first { "first" } else { "last" };
    let name = format!("{end} cell of {}", AXES[axis]);
    assert!(round > 0, "{name}: in no try round the end");
    assert!(across > 0 || !first, "{name}: in no try across");
    format!("{name} {round} and {across}")
}

#[test]
fn round_an_end_only_where_the_axis_is_periodic() {
    let of_axis = |axis| [true, false].map(|first| counted(axis, first));
    let counts = [0, 1, 2].map(of_axis).concat();
    report(&format!(
        "round an end, and across with walls: of {TRIES} tries each {counts:?}"
    ));
}
