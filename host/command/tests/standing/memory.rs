//! What the commands take of a large save: its bytes and its study together, as the engine does to judge it, and no more.

use crate::child::Running;
use crate::place::Place;
use cichowiej::{Constants, Grid, Study};
use std::fs;

/// 40 MB.
const GRID: Grid = Grid { cells: [512, 2, 100], pitch: [1e-3; 3], dt: 1e-12, pole_slots: 4, constants: Constants::Old };

#[test]
fn nothing_takes_more_than_a_save_and_its_study() {
    let place = Place::new();
    let mut study = Study::open(&GRID).unwrap();
    let length = study.save().unwrap().len();
    fs::write(place.path("a.save"), study.save().unwrap()).unwrap();
    study.step(1.0).unwrap();
    fs::write(place.path("b.save"), study.save().unwrap()).unwrap();
    fs::write(place.path("energy.script"), "energy\n").unwrap();
    fs::write(place.path("rewind.script"), "rewind b.save\nrun 1\n").unwrap();
    let [a, b] = ["a.save", "b.save"].map(|name| place.good(&["keep", name]).trim().to_string());
    let cases = [
        &["keep", "a.save", "--folder", "new"][..],
        &["keep", "a.save"],
        &["resume", &a, "energy.script"],
        &["resume", &b, "two.script"],
        &["compare", &a, &b],
        &["compare", &a, &a],
        &["show", &a],
        &["verify"],
        &["run", "rewind.script", "--from", "a.save"],
    ];
    for words in cases {
        let saves = Running::new(&mut place.command(words)).peak() as f64 / length as f64;
        assert!(saves > 1.0 && saves < 2.5, "{words:?}: {saves:.2} times the save's {length} bytes");
    }
}
