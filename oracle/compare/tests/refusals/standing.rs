//! A study with something of everything in it, and a call of every kind that it accepts.

use compare::call::{Bytes, Call, Numbers};
use compare::engine::block::{Material, Pole};
use compare::engine::{Put, Study};
use compare::fill::{Fill, STORES, Store};
use compare::{Mix, Random, save};

pub const SIZES: [usize; 3] = [2, 3, 4];
pub const SLOTS: usize = 2;
pub const CONSTANTS: usize = 1;
pub const SPACINGS: [f64; 4] = [1e-3, 1.5e-3, 2e-3, 1e-12];

pub fn pole(tag: u8) -> Pole {
    let numbers = match tag {
        1 => [2.0, 1e11, 1e10],
        2 => [1e11, 1e10, 0.0],
        _ => [2.0, 1e-11, 0.0],
    };
    Pole { tag, numbers }
}

pub fn material(tags: &[u8]) -> Material {
    Material {
        eps_inf: 3.0,
        sigma: 0.01,
        mu_r: 1.0,
        pole_count: tags.len() as u8,
        poles: tags.iter().map(|tag| pole(*tag)).collect(),
    }
}

pub fn opening() -> Call {
    Call::Open {
        sizes: SIZES,
        pole_slots: SLOTS,
        constants: CONSTANTS,
        spacings: SPACINGS,
    }
}

pub fn tables() -> Numbers {
    Numbers(vec![0.5; 6 * SIZES.iter().sum::<usize>()])
}

/// Materials placed and built, a layer on z, a wave, and a step done. The fields hold NaNs of several
/// bit patterns, so that a store that was written and has the same numbers again would be seen.
pub fn study() -> Study {
    let mut study = Study::lent(SIZES, SLOTS);
    let mut random = Random::new(1966);
    let calls = [
        opening(),
        Call::AddMaterial(material(&[3])),
        Call::AddMaterial(material(&[1, 2])),
        Call::BuildDispersion,
        Call::AddMaterial(material(&[])),
        Call::Cpml {
            axes: [false, false, true],
            thickness: 1,
            given: tables(),
        },
        Call::SetPeriodic([true, false, false]),
        Call::BoxRegion([0, 1, 1, 1, 1, 2]),
    ];
    let writes = STORES.map(|store| fill(store, &mut random));
    for call in calls.iter().chain(&writes) {
        assert_eq!(study.apply(call).refusal, 0, "{call:?}");
    }
    study.ids = (0..study.ids.len() as u32).map(|at| at % 3).collect();
    assert_eq!(study.step(1.0), 0);
    study
}

fn fill(store: Store, random: &mut Random) -> Call {
    Call::Fill(Fill {
        store,
        seed: random.bits(),
        mix: Mix { odd: 100, zeros: 0 },
    })
}

/// To a save of another study of the same sizes and slots.
pub fn rewinding() -> Call {
    let mut other = study();
    assert_eq!(other.apply(&Call::AddMaterial(material(&[3]))).refusal, 0);
    assert_eq!(other.run(&[2.0; 3]), 0);
    Call::Rewind(Bytes(save::write(&other)))
}

/// Every call, each accepted. The first two do not judge the block that is handed to them.
pub fn calls() -> Vec<Call> {
    let cells = [0, 2, 0, 2, 1, 3];
    let length = save::length(&study().record().unwrap());
    vec![
        opening(),
        rewinding(),
        Call::PutBox {
            cells,
            what: Put::Numbers([2.0, 1.0, 0.5]),
        },
        Call::AddMaterial(material(&[2, 3])),
        Call::PutBox {
            cells,
            what: Put::Library(1),
        },
        Call::AssignHalfspace { id: 2, k0: 2 },
        Call::BuildDispersion,
        Call::SetPeriodic([false, true, false]),
        Call::Periodic,
        Call::Conductor,
        Call::Lossy {
            thickness: 1,
            order: 2,
            sigma_max: 8.0,
        },
        Call::Cpml {
            axes: [true; 3],
            thickness: 1,
            given: tables(),
        },
        Call::Slab { k0: 1, k1: 2 },
        Call::Injector { k0: 1 },
        Call::BoxRegion([0, 1, 0, 2, 0, 3]),
        Call::Step(1.0),
        Call::Run(vec![1.0, -1.0]),
        Call::ResetFields,
        Call::TotalEnergy,
        Call::PlaneReading(3),
        Call::SaveLength,
        Call::Save(length),
        Call::Save(length + 5),
    ]
}
