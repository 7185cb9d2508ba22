//! The largest save and the rewind to it, beside a plain copy of as many bytes.

use crate::clock::{best_and_median, heading, row, seconds};
use compare::call::Call;
use compare::difference::first_difference;
use compare::engine::Study;
use compare::engine::block::{MATERIALS, Material, PLACES, Pole};
use compare::fill::{Fill, STORES};
use compare::{Mix, Random, save};
use std::hint::black_box;
use std::io::{self, Write};
use std::process::{Command, Stdio};

/// No save is longer: 2^20 cells, sides of 1,028 in sum and 512 along z are each the most that there may be, and so
/// are the slots and the materials.
const SIZES: [usize; 3] = [512, 4, 512];
const ROUNDS: usize = 9;
const MILLISECONDS: f64 = 1e3;

/// The times of each round.
#[derive(Default)]
struct Times {
    save: Vec<f64>,
    rewind: Vec<f64>,
    copy: Vec<f64>,
}

/// Ordinary numbers in every store; there is no NaN.
fn filled(seed: u64) -> Study {
    let mut random = Random::new(seed);
    let mut study = Study::lent(SIZES, PLACES);
    assert_eq!(study.open(SIZES, PLACES, 0, [1e-3, 1e-3, 1e-3, 1e-12]), 0);
    let pole = Pole {
        tag: 1,
        numbers: [2.0, 1e11, 1e10],
    };
    let material = Material {
        eps_inf: 3.0,
        sigma: 0.01,
        mu_r: 1.0,
        pole_count: PLACES as u8,
        poles: vec![pole; PLACES],
    };
    let materials = vec![Call::AddMaterial(material); MATERIALS - 1];
    let fills = STORES.map(|store| {
        let (seed, mix) = (random.bits(), Mix::ORDINARY);
        Call::Fill(Fill { store, seed, mix })
    });
    for call in materials.iter().chain(&fills) {
        assert_eq!(study.apply(call).refusal, 0, "{call:?}");
    }
    study
}

/// Prints a line for the save and one for the rewind. Everything was written before the first round.
pub fn print() {
    let (study, mut other) = (filled(1), filled(2));
    let length = save::length(&study.record().unwrap());
    let (mut saved, mut copy) = (vec![1; length], vec![2; length]);
    let mut times = Times::default();
    for _ in 0..ROUNDS {
        times
            .save
            .push(seconds(|| assert_eq!(study.save(&mut saved), 0)));
        times.copy.push(copied(&saved, &mut copy));
        times
            .rewind
            .push(seconds(|| assert_eq!(other.rewind(&saved), 0)));
        times.copy.push(copied(&saved, &mut copy));
    }
    assert!(save::write(&study) == saved && copy == saved);
    assert_eq!(first_difference(&study, &other), None);
    let digest = sha256(&saved).unwrap_or_else(|error| format!("not told: {error}"));
    drop((study, other, saved, copy));

    let [nx, ny, nz] = SIZES;
    println!(
        "largest save: {nx}x{ny}x{nz} cells, {PLACES} slots, {MATERIALS} materials, {length} bytes; ms, best of the rounds (median)"
    );
    println!("its SHA-256: {digest}");
    println!(
        "copy: as many bytes by copy_from_slice; the ratio is ours to the copy's, and the target the most it may be"
    );
    println!(
        "touched before the first round, in every byte: both studies' stores, the save's room and the copy's room"
    );
    let names = ["call", "ours", "a copy", "ratio", "target"];
    println!("{}", heading(names));
    let copy = best_and_median(times.copy, MILLISECONDS);
    for (name, times, target) in [("save", times.save, 2.5), ("rewind", times.rewind, 4.0)] {
        let ours = best_and_median(times, MILLISECONDS);
        println!("{}", row(name, ours, copy, ours[0] / copy[0], Some(target)));
    }
}

fn copied(from: &[u8], to: &mut [u8]) -> f64 {
    let time = seconds(|| to.copy_from_slice(black_box(from)));
    black_box(to);
    time
}

/// By the system's `sha256sum`, so that the saves of two libraries can be compared.
fn sha256(bytes: &[u8]) -> io::Result<String> {
    let mut program = Command::new("sha256sum")
        .stdin(Stdio::piped())
        .stdout(Stdio::piped())
        .spawn()?;
    program.stdin.take().unwrap().write_all(bytes)?;
    let said = String::from_utf8_lossy(&program.wait_with_output()?.stdout).into_owned();
    Ok(said.split(' ').next().unwrap_or_default().to_string())
}
