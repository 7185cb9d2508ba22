//! Each of the premises on stores: where a pair is equal in all but one number, the named cell ends with other numbers
//! than the changed one alone.

use crate::cell::{Place, places};
use crate::grid::{AXES, Cell, Grid, TABLES};
use crate::pair::another;
use crate::trial::{ONE_STEP, TRIES, Trial, study, wide_region};
use compare::engine::Study;
use compare::engine::block::{Record, Region};
use compare::fill::Store;
use compare::{Random, report};

fn grid(study: &Study) -> Grid {
    Grid::of(&study.record().unwrap())
}

fn nothing_built(record: &mut Record) {
    record.built_count = 0;
}

/// The numbers of a cell with four pole slots, and its id.
fn numbers() -> Vec<Place> {
    places(&study(&mut Random::new(0), &|_| {}))
}

/// The last three of the poles, what the polarizations grew by in a step.
fn is_growth(place: &Place) -> bool {
    place.store == Store::Poles && place.part >= 24
}

fn change(study: &mut Study, named: Cell, place: Place) {
    let at = grid(study).at(named);
    place.put(study, at, another(place.of(study, at)));
}

#[test]
fn each_number_of_the_cell_is_needed() {
    let mut counts = Vec::new();
    for place in numbers() {
        if place.store == Store::Ids || is_growth(&place) {
            continue;
        }
        let apart = Some(place);
        let trial = Trial { apart, ..ONE_STEP };
        let name = format!("{:?} {}", place.store, place.part);
        counts.push(trial.seen(&name, &|_, study, named| change(study, named, place)));
    }
    report(&format!(
        "each number of the cell changed: of {TRIES} tries, others differ in {counts:?}"
    ));
}

/// A step writes these three before it reads them, so that nothing is left of a change. With nothing built it does
/// neither, and they are needed for themselves alone.
#[test]
fn growth_of_polarizations_is_needed_for_itself_alone() {
    for place in numbers().into_iter().filter(is_growth) {
        let name = format!("{place:?}");
        let change = |_: &mut Random, study: &mut Study, named| change(study, named, place);
        ONE_STEP.unseen(&name, &change);
        let mut kept = Trial {
            n: 6,
            put: &nothing_built,
            apart: Some(place),
        };
        kept.unseen(&name, &change);
        kept.apart = None;
        kept.seen(&name, &change);
    }
}

/// Another of the ids that are built. With nothing built, no number depends on it.
#[test]
fn the_id_is_needed_where_dispersion_is_built() {
    let change = |random: &mut Random, study: &mut Study, named| {
        let at = grid(study).at(named);
        study.ids[at] = (study.ids[at] + 1 + random.below(3) as u32) % 4;
    };
    let apart = numbers().pop();
    let seen = Trial { apart, ..ONE_STEP }.seen("another id", &change);
    let off = Trial {
        n: 6,
        put: &nothing_built,
        apart,
    };
    off.unseen("an id with nothing built", &|random, study, named| {
        let at = grid(study).at(named);
        study.ids[at] ^= 1 + random.below(1 << 31) as u32;
    });
    report(&format!("{seen} of {TRIES} tries"));
}

/// Of an axis that is not active none is read.
#[test]
fn each_table_of_an_active_axis_is_needed() {
    let mut counts = Vec::new();
    for (axis, which) in (0..18).map(|at| (at / 6, at % 6)) {
        let change = |_: &mut Random, study: &mut Study, named| {
            let at = grid(study).in_tables(named, axis, which);
            study.tables[at] = another(study.tables[at]);
        };
        let name = format!("{} of {}", TABLES[which], AXES[axis]);
        counts.push(ONE_STEP.seen(&name, &change));
        let inactive = Trial {
            n: 6,
            put: &|record| record.active[axis] = false,
            apart: None,
        };
        inactive.unseen(&name, &change);
    }
    report(&format!(
        "each table changed: of {TRIES} tries, seen in {counts:?}"
    ));
}

/// Where the line has the first plane of the grid.
const PAD: usize = 24;

fn no_region(record: &mut Record) {
    let (kind, corners) = (0, [0; 6]);
    record.region = Region { kind, corners };
}

/// A number of the line at the named cell's plane or at the one below. Without a region none is read.
#[test]
fn the_line_is_needed_where_there_is_a_region() {
    for (half, name) in ["ex of the line", "hy of the line"].iter().enumerate() {
        let change = |random: &mut Random, study: &mut Study, [.., k]: Cell| {
            let at = half * study.aux.len() / 2 + PAD + k - random.index(2);
            study.aux[at] = another(study.aux[at]);
        };
        let wave = Trial {
            put: &wide_region,
            ..ONE_STEP
        };
        let seen = wave.seen(name, &change);
        let unused = Trial {
            n: 6,
            put: &no_region,
            apart: None,
        };
        unused.unseen(name, &change);
        report(&format!("{seen} of {TRIES} tries"));
    }
}
