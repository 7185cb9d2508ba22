//! The curve's numbers: against the closed form, and against themselves where they are had another way.

mod common;

use cichowiej::Constants;
use cichowiej_command::curve::Curve;
use cichowiej_command::curve::plan::Plan;
use cichowiej_command::curve::study::Watch;
use cichowiej_command::head::Head;
use common::HEAD;
use std::fs;
use std::path::Path;
use std::sync::atomic::AtomicBool;

/// The curve of a head, and how many steps lie between two samples.
fn curve(text: &str) -> (usize, Curve) {
    let head = Head::parse(text).unwrap();
    let plan = Plan::new(&head).unwrap();
    let readings = plan.readings(&Watch { stop: &AtomicBool::new(false), moved: &|_| () }).unwrap().unwrap();
    (plan.stride(), Curve::new(&plan, "".into(), &readings))
}

/// (What is left of the field at the end is summed up otherwise by few samples than by all, which shows in the eighth place.) The source's samples as a table: what is known of it is then its grid's highest frequency alone. At a Courant number of 1 along z that is every step.
#[test]
fn few_samples_give_what_all_give() {
    let z = HEAD.replace("courant = 0.5", "dt = \"3.3 ps\"");
    let head = Head::parse(&z).unwrap();
    let plan = Plan::new(&head).unwrap();
    let samples = plan.source.samples(0.0, plan.grid.dt, 0).take(3000).collect::<Vec<f64>>();
    let (before, rest) = z.split_once("[source.").unwrap();
    let (_, after) = rest.split_once("\n\n").unwrap();
    let table = format!("{before}[source.table]\nsamples = {samples:?}\n\n{after}");
    let ((few, of_few), (every, of_every)) = (curve(&z), curve(&table));
    assert!(few > 4 && every == 1, "{few} {every}");
    for (a, b) in of_few.rows.iter().zip(&of_every.rows) {
        assert!((a.energy - b.energy).abs() < 1e-7, "{} {}", a.energy, b.energy);
        for (a, b) in a.values.iter().zip(&b.values) {
            assert!((a.db - b.db).abs() < 1e-5 && (a.degrees - b.degrees).abs() < 1e-5, "{a:?} {b:?}");
            assert!((a.reflected.unwrap() - b.reflected.unwrap()).abs() < 1e-6, "{a:?} {b:?}");
        }
    }
}

/// The example against the transfer matrix: the sheet of five cells, at 190 cells a wavelength and more.
#[test]
fn the_example_is_the_closed_forms() {
    let example = Path::new(env!("CARGO_MANIFEST_DIR")).join("../../examples/office-80.toml");
    let (_, curve) = curve(&fs::read_to_string(example).unwrap());
    assert_eq!(curve.rows.len(), 9);
    for row in &curve.rows {
        for (&frequency, value) in curve.frequencies.iter().zip(&row.values) {
            let slab = validate::theory::slab(&row.sheet.material, 104e-6, frequency, curve.constants);
            let (db, degrees) = (20.0 * slab.transmission.norm().log10(), slab.transmission.angle().to_degrees());
            let reflected = slab.reflection.norm().powi(2);
            assert!(
                (value.db - db).abs() < 2e-3 && (value.degrees - degrees).abs() < 5e-3,
                "{value:?}, closed form {db} dB, {degrees}"
            );
            assert!((value.reflected.unwrap() / reflected - 1.0).abs() < 2e-3, "{value:?}, closed form {reflected}");
        }
    }
}

/// From the old constants to those of 2019 a curve moves in about its tenth digit, and as the closed form moves: on this grid within a quarter of that.
#[test]
fn constants_move_the_curve_as_they_move_the_closed_form() {
    let new = HEAD.replace("courant = 0.5", "courant = 0.5\nconstants = \"2019\"");
    let ((_, old), (_, new)) = (curve(HEAD), curve(&new));
    assert_eq!((old.constants, new.constants), (Constants::Old, Constants::Si2019));
    for (a, b) in old.rows.iter().zip(&new.rows) {
        let slab = |frequency, set| validate::theory::slab(&a.sheet.material, 2e-3, frequency, set).transmission;
        for ((&frequency, a), b) in old.frequencies.iter().zip(&a.values).zip(&b.values) {
            let moved = slab(frequency, Constants::Si2019) / slab(frequency, Constants::Old);
            let (db, degrees) = (20.0 * moved.norm().log10(), moved.angle().to_degrees());
            let near = |found: f64, wanted: f64| wanted.abs() > 1e-11 && (found - wanted).abs() < 0.25 * wanted.abs();
            assert!(
                near(b.db - a.db, db) && near(b.degrees - a.degrees, degrees),
                "{frequency} Hz: {a:?} {b:?}, {db} dB, {degrees} degrees"
            );
        }
    }
}

/// A box of air in the head changes nothing, though air alone is then a study of its own.
#[test]
fn a_box_of_air_changes_nothing() {
    let air = "[materials.air]\neps_inf = 1.0\n\n[[boxes]]\nmaterial = \"air\"\ncells = { z = [30, 35] }\n\n[planes]";
    let ((_, plain), (_, boxed)) = (curve(HEAD), curve(&HEAD.replace("[planes]", air)));
    for (a, b) in plain.rows.iter().zip(&boxed.rows) {
        assert_eq!(a.values, b.values);
    }
}

/// A box of glass in the head: what comes back has the glass's part in it, and transmission is still against the empty head.
#[test]
fn a_box_of_glass_is_part_of_what_comes_back() {
    let glass = "[materials.glass]\neps_inf = 4.0\n\n[[boxes]]\nmaterial = \"glass\"\ncells = { z = [30, 35] }\n\n[planes]";
    let nothing = HEAD.replace("eps_inf = 2.0, sigma = 0.1", "eps_inf = 1.0").replace("[planes]", glass);
    let (_, curve) = curve(&nothing);
    let slab = validate::theory::slab(&cichowiej::Material::plain(4.0), 5e-3, 10e9, curve.constants);
    let value = &curve.rows[0].values[1];
    assert!(value.db.abs() < 1e-9 && value.degrees.abs() < 1e-9, "{value:?}");
    assert!((value.reflected.unwrap() - slab.reflection.norm().powi(2)).abs() < 0.02, "{value:?} {:?}", slab.reflection);
}
