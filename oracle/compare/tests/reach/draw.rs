//! Random studies that no step refuses.

use crate::cell;
use crate::grid::{Cell, Grid};
use compare::engine::block::{MATERIALS, Material, PLACES, Record};
use compare::engine::{Study, cichowiej_c0, cichowiej_max_stable_dt};
use compare::fill::{Fill, Store};
use compare::poles::Poles;
use compare::{Mix, Random, judge, sound};

fn flags(random: &mut Random) -> [bool; 3] {
    [0; 3].map(|_| random.once_in(2))
}

/// Cells of about a millimetre and a time step next to the limit, so that a change is not lost in the roundings; in
/// some of the odd studies, any sizes.
fn spacings(random: &mut Random, mix: Mix) -> [f64; 4] {
    if mix.odd != 0 && random.once_in(4) {
        return [0; 4].map(|_| random.with_field(950, 1050));
    }
    let [dx, dy, dz] = [0; 3].map(|_| 1e-3 * (1.0 + random.above_zero(1.0, Mix::ORDINARY)));
    let limit = cichowiej_max_stable_dt(cichowiej_c0(), dx, dy, dz, 1.0);
    [dx, dy, dz, limit * random.with_field(1022, 1022)]
}

/// The vacuum, and materials with so many poles as each of the numbers says.
fn library(random: &mut Random, counts: &[usize], poles: Poles) -> Vec<Material> {
    let counts = [&[0], counts].concat();
    let material = |count| sound::material(random, count, poles);
    counts.into_iter().map(material).collect()
}

/// Any record without a fault, with many steps left in the clock.
pub fn record(random: &mut Random, sizes: [usize; 3], mix: Mix) -> Record {
    let pole_slots = random.index(PLACES + 1);
    let constants = random.index(2) as u8;
    let spacings = spacings(random, mix);
    let dt = spacings[3];
    let poles = Poles { dt, constants, mix };
    let count = [1, 2, 4, MATERIALS][random.index(4)];
    let counts: Vec<usize> = (1..count).map(|_| random.index(pole_slots + 1)).collect();
    let layer_on = !random.once_in(3);
    let record = Record {
        sizes,
        periodic: flags(random),
        active: flags(random).map(|active| active && layer_on),
        layer_on,
        built_count: [0, count, count, 1 + random.index(count)][random.index(4)] as u8,
        pole_slots: pole_slots as u8,
        material_count: count as u8,
        region: sound::region(random, sizes),
        spacings,
        time: random.number(1e-9, mix),
        steps: random.bits() as u32 >> (1 + random.below(31)),
        constants,
        materials: library(random, &counts, poles),
    };
    assert_eq!(judge::fault(&record), 0);
    record
}

/// A record with something of everything: four poles in each material but the vacuum, all of them built, a layer on all
/// axes, and a region.
pub fn lively(random: &mut Random, sizes: [usize; 3]) -> Record {
    let mut record = record(random, sizes, Mix::ORDINARY);
    let poles = Poles::of(&record, Mix::ORDINARY);
    record.materials = library(random, &[PLACES; 3], poles);
    record.material_count = 4;
    record.built_count = 4;
    record.pole_slots = PLACES as u8;
    record.layer_on = true;
    record.active = [true; 3];
    while record.region.kind == 0 {
        record.region = sound::region(random, sizes);
    }
    assert_eq!(judge::fault(&record), 0);
    record
}

/// Random contents of every store; no id is stale.
pub fn study(random: &mut Random, record: &Record, mix: Mix) -> Study {
    let mut study = Study::lent(record.sizes, record.pole_slots.into());
    study.block = record.given();
    for store in [Store::Tables, Store::Aux] {
        fill(random, store, mix, &mut study);
    }
    draw_cells(random, record, mix, &mut study);
    study
}

pub fn fill(random: &mut Random, store: Store, mix: Mix, study: &mut Study) {
    let seed = random.bits();
    Fill { store, seed, mix }.write(study);
}

/// All numbers of all cells. The ids are drawn once more, since those of a fill may be stale; where nothing is built, any
/// will do.
fn draw_cells(random: &mut Random, record: &Record, mix: Mix, study: &mut Study) {
    for store in cell::STORES {
        fill(random, store, mix, study);
    }
    let built = u64::from(record.built_count);
    study.ids.fill_with(|| match built {
        0 => random.bits() as u32 >> random.below(32),
        built => random.below(built) as u32,
    });
}

/// A copy of a study in which each cell that is farther than n from the named one has numbers and an id drawn anew.
pub fn changed_beyond(
    random: &mut Random,
    study: &Study,
    named: Cell,
    n: usize,
    mix: Mix,
) -> Study {
    let record = study.record().unwrap();
    let grid = Grid::of(&record);
    let mut anew = study.clone();
    draw_cells(random, &record, mix, &mut anew);
    let mut changed = study.clone();
    for far in grid.beyond(named, n) {
        cell::copy(&anew, &mut changed, grid.at(far));
    }
    changed
}

/// Puts another NaN in the place of each: all count as one.
pub fn put_other_nans(random: &mut Random, numbers: &mut [f64]) {
    for x in numbers.iter_mut().filter(|x| x.is_nan()) {
        *x = random.nan();
    }
}

/// A cell of the grid, often at an end of an axis or of several.
pub fn named(random: &mut Random, sizes: [usize; 3]) -> Cell {
    sizes.map(|n| [0, n - 1, random.index(n), random.index(n)][random.index(4)])
}
