//! Poles that cannot be stepped: document 02's S-2.

use super::{added, bad_in_its_place, due, judged, with_double};
use crate::standing::{SIZES, SLOTS, SPACINGS, calls, material, pole, study};
use compare::call::Call;
use compare::engine::Study;
use compare::engine::block::{DOUBLES, MATERIALS, Material, PLACES, Pole};
use compare::judge::poles::passes;
use compare::judge::*;

/// Where dt stands in a block.
const DT: usize = DOUBLES[3];

/// Some of each kind that cannot be stepped with the standing study's dt.
pub fn bad() -> Vec<Pole> {
    let dt = SPACINGS[3];
    let poles = [
        (1, [f64::NAN, 1e11, 1e10]),
        (1, [2.0, 1e160, 1e10]),
        (1, [2.0, 1e11, -2.0 / dt]),
        (1, [f64::MAX, 1e11, 1e10]),
        (2, [1e11, f64::INFINITY, 0.0]),
        (2, [1e11, -2.0 / dt, 0.0]),
        (2, [-1e155, 1e10, 0.0]),
        (3, [2.0, 0.0, 0.0]),
        (3, [0.0, -0.0, 0.0]),
        (3, [2.0, f64::from_bits(1), 0.0]),
        (3, [f64::NEG_INFINITY, 1e-11, 0.0]),
    ];
    let poles = poles.map(|(tag, numbers)| Pole { tag, numbers });
    assert!(
        poles
            .iter()
            .all(|pole| !passes(pole, 0, dt) && !passes(pole, 1, dt))
    );
    poles.to_vec()
}

/// Every counted place of the standing study with each of them.
fn with_bad() -> Vec<Study> {
    let standing = study();
    let record = standing.record().unwrap();
    let mut studies = Vec::new();
    for (id, material) in record.materials.iter().enumerate() {
        for (place, bad) in
            (0..material.poles.len()).flat_map(|at| bad().into_iter().map(move |p| (at, p)))
        {
            let mut material = material.clone();
            material.poles[place] = bad;
            let mut study = standing.clone();
            study.put_material(id, material);
            studies.push(study);
        }
    }
    studies
}

#[test]
fn a_record_with_one() {
    let calls = calls();
    let studies = with_bad();
    assert_eq!(studies.len(), 3 * bad().len());
    for study in studies {
        bad_in_its_place(&study, &calls);
    }
}

/// Each of the 60 places that can be counted, in a record that has no other fault.
#[test]
fn every_counted_place() {
    let mut study = Study::lent([1; 3], PLACES);
    assert_eq!(study.open([1; 3], PLACES, 0, SPACINGS), 0);
    let four = of(&[1, 2, 3, 1].map(pole));
    for _ in 1..MATERIALS {
        let adding = Call::AddMaterial(four.clone());
        assert_eq!(study.apply(&adding).refusal, 0);
    }
    let call = Call::SetPeriodic([true; 3]);
    due(&study, &call, 0);
    for (id, place) in (1..MATERIALS).flat_map(|id| (0..PLACES).map(move |place| (id, place))) {
        for bad in bad() {
            let mut material = four.clone();
            material.poles[place] = bad;
            let mut study = study.clone();
            study.put_material(id, material);
            due(&study, &call, BAD_STUDY);
        }
    }
}

/// What the record has past a count is no pole: with any counts the calls are judged as they were.
#[test]
fn blank_places() {
    for poles in 0..=SLOTS {
        for count in 1..=MATERIALS {
            let mut study = study();
            let mut record = study.record().unwrap();
            record.materials.resize(count, material(&[]));
            for entry in &mut record.materials[1..] {
                *entry = material(&[1, 2][..poles]);
            }
            (record.material_count, record.built_count) = (count as u8, 0);
            study.block = record.write();
            for call in calls() {
                assert_ne!(judged(&study, &call), BAD_STUDY, "{call:?}");
            }
        }
    }
}

pub fn of(poles: &[Pole]) -> Material {
    Material {
        pole_count: poles.len() as u8,
        poles: poles.to_vec(),
        ..material(&[])
    }
}

/// After the record's own faults, bytes that are no material's and more poles than slots, and before 16 that stand.
#[test]
fn adding_one() {
    let standing = study();
    let mut full = study();
    while full.record().unwrap().material_count < 16 {
        assert_eq!(full.apply(&Call::AddMaterial(material(&[]))).refusal, 0);
    }
    let (mut flat, good) = (study(), pole(3));
    flat.block[..2].fill(0);
    for bad in bad() {
        for poles in [
            vec![bad.clone()],
            vec![good.clone(), bad.clone()],
            vec![bad.clone(), good.clone()],
        ] {
            let call = Call::AddMaterial(of(&poles));
            due(&standing, &call, BAD_POLE);
            due(&full, &call, BAD_POLE);
            due(&flat, &call, BAD_SIZE);
        }
        let many = of(&[bad.clone(), good.clone(), good.clone()]);
        due(&standing, &Call::AddMaterial(many), TOO_MANY_POLES);
        let mut no_material = of(&[bad]).write();
        no_material[124] = 9;
        added(&standing, &no_material, BAD_STUDY);
        added(&standing, &no_material[1..], BAD_STORE);
    }
    due(&full, &Call::AddMaterial(of(&[good])), FULL);
}

/// A pole goes by the study's time step and constants: with others put into the block, the record is judged anew.
#[test]
fn by_time_step_and_constants() {
    // a3 is just beyond the largest double by the older constants, and just below it by those of 2019
    let edge = Pole {
        tag: 3,
        numbers: [1.7e308, f64::from_bits(0x3DA2_6997_3FB8_89A1), 0.0],
    };
    let adding = Call::AddMaterial(of(&[edge]));
    let mut studies = [0, 1].map(|constants| {
        let mut study = Study::lent(SIZES, SLOTS);
        assert_eq!(study.open(SIZES, SLOTS, constants, [1.0; 4]), 0);
        study
    });
    due(&studies[0], &adding, BAD_POLE);
    due(&studies[1], &adding, 0);
    let study = &mut studies[1];
    assert_eq!(study.apply(&adding).refusal, 0);
    let periodic = Call::SetPeriodic([true; 3]);
    due(study, &periodic, 0);
    for (dt, refusal) in [
        (1.0, 0),
        (0.5, 0),
        (1.001, BAD_STUDY),
        (1e-300, 0),
        (1e300, BAD_STUDY),
    ] {
        due(
            &with_double(study, DT, f64::to_bits(dt)),
            &periodic,
            refusal,
        );
    }
    study.put_constants(0);
    due(study, &periodic, BAD_STUDY);
    due(&with_double(study, DT, 0.5_f64.to_bits()), &periodic, 0);
}
