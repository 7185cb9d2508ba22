//! Random studies that can be saved, grown by calls or put together by hand, and noise to be written over.

use crate::choose::Chooser;
use crate::engine::Study;
use crate::engine::block::{MATERIALS, Material, PLACES, Record, Region};
use crate::judge;
use crate::poles::Poles;
use crate::{Mix, Random};

/// Numbers with something odd among them.
pub const ODD: Mix = Mix { odd: 60, zeros: 60 };

/// Few cells; now and then a line of them, and seldom the longest there is.
pub fn small(random: &mut Random) -> [usize; 3] {
    let mut sizes = [0; 3].map(|_| 1 + random.index(3));
    if random.once_in(6) {
        let longest = if random.once_in(20) { 512 } else { 20 };
        sizes = [1; 3];
        sizes[random.index(3)] = 1 + random.index(longest);
    }
    sizes
}

/// A study of these sizes, one way or the other.
pub fn study(random: &mut Random, sizes: [usize; 3]) -> Study {
    if random.once_in(2) {
        return by_hand(random, sizes);
    }
    let mut chooser = Chooser::new(random);
    chooser.sizes = sizes;
    grown(random, &chooser)
}

/// What a history of calls on the engine leaves, refused ones and the caller's own writing included; every pole is one
/// that can be stepped.
pub fn grown(random: &mut Random, chooser: &Chooser) -> Study {
    let mut study = Study::lent(chooser.sizes, chooser.pole_slots);
    assert_eq!(study.apply(&chooser.opening()).refusal, 0);
    for call in chooser.first(random) {
        study.apply(&call);
    }
    for done in 0..chooser.calls {
        let record = study.record().unwrap();
        study.apply(&chooser.next(random, &record, done));
    }
    while let Some(call) = chooser.mending(random, &study.record().unwrap()) {
        study.apply(&call);
    }
    study
}

/// Any record without a fault and any numbers: more than calls can lead to.
pub fn by_hand(random: &mut Random, sizes: [usize; 3]) -> Study {
    let record = record(random, sizes);
    let mut study = Study::lent(sizes, record.pole_slots.into());
    study.block = record.given();
    for store in study.stores_mut() {
        store.fill_with(|| random.number(1.0, ODD));
    }
    study
        .ids
        .fill_with(|| random.bits() as u32 >> random.below(32));
    study
}

fn record(random: &mut Random, sizes: [usize; 3]) -> Record {
    let flags = |random: &mut Random| [0; 3].map(|_| random.once_in(2));
    let pole_slots = random.index(PLACES + 1);
    let material_count = [1, 2, 1 + random.index(MATERIALS), MATERIALS][random.index(4)];
    let layer_on = random.once_in(2);
    let spacings = [0; 4].map(|_| spacing(random));
    let constants = random.index(2) as u8;
    let poles = Poles {
        dt: spacings[3],
        constants,
        mix: ODD,
    };
    let materials = (0..material_count).map(|at| {
        let count = if at == 0 {
            0
        } else {
            random.index(pole_slots + 1)
        };
        material(random, count, poles)
    });
    let record = Record {
        sizes,
        materials: materials.collect(),
        periodic: flags(random),
        active: flags(random).map(|active| active && layer_on),
        layer_on,
        built_count: random.index(material_count + 1) as u8,
        pole_slots: pole_slots as u8,
        material_count: material_count as u8,
        region: region(random, sizes),
        spacings,
        time: random.number(1e-9, ODD),
        steps: random.bits() as u32 >> random.below(32),
        constants,
    };
    assert_eq!(judge::fault(&record), 0);
    record
}

/// Any numbers, and so many poles that can be stepped.
pub fn material(random: &mut Random, count: usize, poles: Poles) -> Material {
    let [eps_inf, sigma, mu_r] = [0; 3].map(|_| random.number(4.0, ODD));
    Material {
        eps_inf,
        sigma,
        mu_r,
        pole_count: count as u8,
        poles: (0..count).map(|_| poles.good(random)).collect(),
    }
}

/// Any corners inside, whatever the kind.
pub fn region(random: &mut Random, sizes: [usize; 3]) -> Region {
    let kind = random.below(4) as u8;
    let mut corners = [0; 6];
    if kind != 0 {
        for (pair, n) in corners.chunks_mut(2).zip(sizes) {
            pair.fill_with(|| random.index(n));
            pair.sort();
        }
    }
    Region { kind, corners }
}

/// Finite and above 0, down to the smallest and up to the largest.
fn spacing(random: &mut Random) -> f64 {
    match random.below(8) {
        0 => f64::from_bits(1),
        1 => f64::MAX,
        2 => random.with_field(0, 0).max(f64::from_bits(1)),
        _ => random.with_field(1, 2046),
    }
}

/// A block and stores of the lengths that a study of these sizes has, with any bits in them.
pub fn noise(random: &mut Random, sizes: [usize; 3], pole_slots: usize) -> Study {
    let mut study = Study::lent(sizes, pole_slots);
    study.block.fill_with(|| random.bits() as u8);
    for store in study.stores_mut() {
        store.fill_with(|| f64::from_bits(random.bits()));
    }
    study.ids.fill_with(|| random.bits() as u32);
    study
}
