//! Each of the premises on the record, on the clock and on samples.

use crate::draw;
use crate::pair::{Pair, another};
use crate::told;
use crate::trial::{ONE_STEP, TRIES, Trial, study, wide_region};
use compare::engine::Study;
use compare::engine::block::{Record, Region};
use compare::{Random, agree, report, sound};

type Edit<'a> = &'a dyn Fn(&mut Random, &mut Record);

/// Puts another record into a study.
fn edit(random: &mut Random, study: &mut Study, edit: Edit) {
    let mut record = study.record().unwrap();
    edit(random, &mut record);
    assert!(study.block != record.given(), "nothing changed");
    study.block = record.given();
}

fn other_corners(random: &mut Random, record: &mut Record) {
    let old = record.region;
    while record.region.kind == 0 || record.region.corners == old.corners {
        record.region = sound::region(random, record.sizes);
    }
    record.region.kind = old.kind;
}

fn stronger_poles(record: &mut Record) {
    let poles = record.materials.iter_mut().flat_map(|m| &mut m.poles);
    poles.for_each(|pole| pole.numbers[0] *= 1.25);
}

#[test]
fn the_record_is_needed() {
    let mut counts = Vec::new();
    let mut needed = |name: &str, change: Edit| {
        let trial = Trial {
            put: &wide_region,
            ..ONE_STEP
        };
        counts.push(trial.seen(name, &|random, study, _| edit(random, study, change)));
    };
    for (at, name) in ["dx", "dy", "dz", "dt"].into_iter().enumerate() {
        needed(name, &|_, record| record.spacings[at] *= 1.25);
    }
    for (axis, name) in ["x", "y", "z"].into_iter().enumerate() {
        needed(&format!("{name} periodic"), &|_, record| {
            record.periodic[axis] ^= true;
        });
        needed(&format!("{name} active"), &|_, record| {
            record.active[axis] ^= true;
        });
    }
    needed("constants", &|_, record| record.constants ^= 1);
    needed("built count", &|_, record| record.built_count = 0);
    needed("a pole's number", &|_, record| stronger_poles(record));
    needed("corners", &other_corners);
    needed("kind of region", &|_, record| {
        record.region.kind = record.region.kind % 3 + 1;
    });
    needed("a region", &|_, record| {
        let (kind, corners) = (0, [0; 6]);
        record.region = Region { kind, corners };
    });
    report(&format!(
        "the record changed: of {TRIES} tries, seen in {counts:?}"
    ));
}

/// The numbers of a material go into cells when it is put there, and the layer works on active axes alone.
#[test]
fn what_of_the_record_no_step_reads() {
    let unread = |name: &str, put: &dyn Fn(&mut Record), change: Edit| {
        let (n, apart) = (6, None);
        let trial = Trial { n, put, apart };
        trial.unseen(name, &|random, study, _| edit(random, study, change));
    };
    unread("numbers of materials", &|_| {}, &|_, record| {
        for material in &mut record.materials {
            material.eps_inf = another(material.eps_inf);
            material.sigma = another(material.sigma);
            material.mu_r = another(material.mu_r);
        }
    });
    unread("a material that is not built", &|_| {}, &|_, record| {
        let last = record.materials[3].clone();
        record.materials.push(last);
        record.material_count += 1;
    });
    let no_axis = |record: &mut Record| record.active = [false; 3];
    unread("a layer without an active axis", &no_axis, &|_, record| {
        record.layer_on = false;
    });
}

/// Every store is equal in every number, and the clocks are not. A step reads it only to be refused when it is spent.
#[test]
fn no_number_depends_on_the_clock() {
    for seed in 0..TRIES {
        let mut random = Random::new(seed);
        let first = study(&mut random, &|_| {});
        let mut second = first.clone();
        second.put_time(random.odd());
        second.put_steps(u32::MAX - 6);
        let mut pair = Pair::new([first, second], [0; 3]);
        told(format!("try {seed}"), || pair.step_all(&[0.5; 6]));
        let [a, b] = &pair.both;
        for ((name, a), (_, b)) in a.stores().into_iter().zip(b.stores()) {
            let unequal = a.iter().zip(b).position(|(x, y)| !agree(*x, *y));
            assert_eq!(unequal, None, "place in {name}, try {seed}");
        }
        let [a, b] = [a, b].map(|study| study.record().unwrap());
        assert!(!agree(a.time, b.time) && a.steps != b.steps, "try {seed}");
    }
}

/// Steps in which the first sample is on the line and not yet beside the grid: it is added at 6 at the end of the first,
/// goes on by a cell in each further one, and the grid begins at 24.
const ON_THE_LINE: usize = 19;

/// A wave, and nothing that could outgrow it.
fn quiet(record: &mut Record) {
    wide_region(record);
    record.built_count = 0;
    record.active = [false; 3];
}

/// Whether the named cell is another after twenty steps where the first sample was; after nineteen it never is.
fn sample_reaches(seed: u64) -> bool {
    let mut random = Random::new(seed);
    let study = study(&mut random, &quiet);
    let mut named = draw::named(&mut random, study.record().unwrap().sizes);
    named[2] = random.index(2);
    let mut pair = Pair::new([study.clone(), study], named);
    told(format!("try {seed}"), || {
        pair.step_each([1.0, 1e6]);
        for _ in 1..ON_THE_LINE {
            pair.step(1.0);
            pair.assert_equal();
        }
        pair.step(1.0);
        !pair.differing().is_empty()
    })
}

#[test]
fn a_sample_is_needed_from_the_twentieth_step_on() {
    let seen = (0..TRIES).filter(|seed| sample_reaches(*seed)).count();
    assert!(seen > 0, "in no try");
    report(&format!(
        "another first sample: of {TRIES} tries, seen in {seen} after 20 steps, and in none after 19"
    ));
}
