//! Calls that do little but read the block and write it: on a small study with as many materials as there may be.

use crate::clock::{best_and_median, heading, seconds, shown};
use compare::call::Call;
use compare::engine::block::{MATERIALS, Material, PLACES, Pole};
use compare::engine::{Put, Study};
use compare::judge::{BAD_POLE, FULL};

const SIZES: [usize; 3] = [1, 1, 64];
const ROUNDS: usize = 9;
/// Calls in a round.
const CALLS: usize = 2_000;
/// The most that one may take, in microseconds.
const TARGET: f64 = 2.0;

/// A material with every place for a pole taken.
fn material() -> Material {
    let pole = Pole {
        tag: 1,
        numbers: [2.0, 1e11, 1e10],
    };
    Material {
        eps_inf: 3.0,
        sigma: 0.01,
        mu_r: 1.0,
        pole_count: PLACES as u8,
        poles: vec![pole; PLACES],
    }
}

/// The same, and the last pole cannot be stepped.
fn bad() -> Material {
    let mut material = material();
    material.poles[PLACES - 1].numbers[2] = f64::NAN;
    material
}

/// Opened, with so many materials.
fn standing(materials: usize) -> Study {
    let mut study = Study::lent(SIZES, PLACES);
    assert_eq!(study.open(SIZES, PLACES, 0, [1e-3, 1e-3, 1e-3, 1e-12]), 0);
    for _ in 1..materials {
        assert_eq!(study.apply(&Call::AddMaterial(material())).refusal, 0);
    }
    study
}

/// A line: each call on a block that is put back before it (a copy of its bytes, which is timed too), and the
/// answer that is due.
fn line(name: &str, materials: usize, due: u32, call: impl Fn(&mut Study) -> u32) {
    let mut study = standing(materials);
    let block = study.block.clone();
    let mut round = || {
        seconds(|| {
            for _ in 0..CALLS {
                study.block.copy_from_slice(&block);
                assert_eq!(call(&mut study), due, "{name}");
            }
        })
    };
    let times = (0..ROUNDS).map(|_| round()).collect();
    let ours = shown(best_and_median(times, 1e6 / CALLS as f64));
    println!("{name:<44}{ours:>16}{TARGET:>36.1}");
}

pub fn print() {
    let [nx, ny, nz] = SIZES;
    println!(
        "small calls on {nx}x{ny}x{nz} cells with vacuum and {} materials of {PLACES} Lorentz poles; us, best of the rounds (median); the target is the most",
        MATERIALS - 1
    );
    println!("{}", heading(["call", "ours", "", "", "target"]));
    let (bytes, bad, all) = (material().write(), bad().write(), MATERIALS);
    line("plane reading", all, 0, |study| {
        study.plane_reading(nz / 2, &mut [0.0])
    });
    line("total energy", all, 0, |study| {
        study.total_energy(&mut [0.0])
    });
    line("set_periodic", all, 0, |study| {
        study.set_periodic([true, true, false])
    });
    line("add_material, the 16th", all - 1, 0, |study| {
        study.add_material(&bytes, &mut [0])
    });
    line("add_material, refused: 16 stand", all, FULL, |study| {
        study.add_material(&bytes, &mut [0])
    });
    let (whole, last) = ([0, nx, 0, ny, 0, nz], Put::Library(all as u32 - 1));
    line("put_box, three numbers into 64 cells", all, 0, |study| {
        study.put_box(whole, Put::Numbers([2.0, 1.0, 0.5]), &mut [0])
    });
    line("put_box, a material into 64 cells", all, 0, |study| {
        study.put_box(whole, last, &mut [0])
    });
    line("save_length", all, 0, |study| study.save_length(&mut [0]));
    line(
        "add_material, refused: its last pole",
        all - 1,
        BAD_POLE,
        |study| study.add_material(&bad, &mut [0]),
    );
}
