//! Whether the program works here: a curve against its closed form, a save taken up again, a damaged one refused.

use crate::curve::Curve;
use crate::curve::plan::Plan;
use crate::curve::study::Watch;
use crate::head::Head;
use cichowiej::{Constants, Grid, Refusal, Study, maths};
use std::f64::consts::PI;
use std::sync::atomic::AtomicBool;

/// Those of the curve: what HEAD has without naming them.
const CONSTANTS: Constants = Constants::Old;

/// A plain sheet of permittivity 4, 2 mm thick, on a short line of cells.
const HEAD: &str = r#"
periodic = ["x", "y"]
[grid]
cells = [1, 1, 160]
pitch = "0.25 mm"
courant = 0.5
[edge.layer]
axes = ["z"]
thickness = 30
alpha_factor = 0.02
[wave.injector]
k0 = 40
[source.modulated]
frequency = "10 GHz"
width = "60 ps"
delay = "300 ps"
[planes]
transmitted = 110
[gauge]
frequencies = ["9.4 GHz"]
[run]
steps = 8000
[sheet]
cells = { z = [60, 68] }
[[sheet.moisture]]
percent = 0
material = { eps_inf = 4.0 }
"#;

/// A line for each part of the self test: what it is, and whether it is as it should be.
pub fn self_test() -> Vec<(String, bool)> {
    vec![transmission(), taken_up()]
}

/// The transmission of a plain slab in dB: 1 / |T|² = 1 + ((n² - 1) / 2n)² sin²(k n d).
fn plain_slab(index: f64, thickness: f64, frequency: f64) -> f64 {
    let part = (index * index - 1.0) / (2.0 * index) * maths::sin(2.0 * PI * frequency / CONSTANTS.c0() * index * thickness);
    -10.0 * maths::log10(1.0 + part * part)
}

fn transmission() -> (String, bool) {
    let wanted = plain_slab(2.0, 2e-3, 9.4e9);
    match computed() {
        Ok(found) => {
            let good = (found - wanted).abs() < 0.02;
            (format!("a plain sheet at 9.4 GHz: {found:.4} dB, by the closed form {wanted:.4} dB"), good)
        }
        Err(message) => (format!("a plain sheet at 9.4 GHz: {message}"), false),
    }
}

fn computed() -> Result<f64, String> {
    let head = Head::parse(HEAD).map_err(|trouble| trouble.located("self test", HEAD))?;
    let plan = Plan::new(&head).map_err(|trouble| trouble.located("self test", HEAD))?;
    let watch = Watch { stop: &AtomicBool::new(false), moved: &|_| () };
    let readings = plan.readings(&watch).map_err(|trouble| trouble.located("self test", HEAD))?.ok_or("interrupted")?;
    let curve = Curve::new(&plan, String::new(), &readings);
    curve.rows.first().and_then(|row| row.values.first()).map(|value| value.db).ok_or("no curve".into())
}

fn taken_up() -> (String, bool) {
    let what = "a save of either set of constants is taken up again with every bit, a cut one is refused";
    let both: Result<Vec<bool>, Refusal> = Constants::ALL.into_iter().map(saved).collect();
    match both {
        Ok(good) => (what.into(), good.into_iter().all(|good| good)),
        Err(refusal) => (format!("{what}: refused as {refusal}"), false),
    }
}

fn saved(constants: Constants) -> Result<bool, Refusal> {
    let pitch = [1e-3; 3];
    let dt = 0.9 * constants.largest_dt(pitch);
    let mut study = Study::open(&Grid { cells: [5, 6, 7], pitch, dt, pole_slots: 1, constants })?;
    study.box_region([1, 3, 1, 4, 1, 5])?;
    // long enough for the wave to come up its line to the box
    let samples: Vec<f64> = (0..100).map(|step| maths::sin(0.3 * f64::from(step))).collect();
    study.run(&samples)?;
    let save = study.save()?;
    let mut again = Study::from_save(&save)?;
    study.step(1.0)?;
    again.step(1.0)?;
    let (cut, own) = (&save[..save.len() - 1], again.grid().constants == constants);
    Ok(own && study.save()? == again.save()? && study.total_energy()? > 0.0 && Study::from_save(cut).is_err())
}

#[cfg(test)]
mod tests {
    use super::*;

    #[test]
    fn all_is_well() {
        for (line, good) in self_test() {
            assert!(good, "{line}");
        }
    }

    /// A quarter of a wavelength reflects most, half of one nothing.
    #[test]
    fn the_closed_form() {
        let frequency = CONSTANTS.c0() / 1e-2;
        assert!(plain_slab(2.0, 2.5e-3, frequency).abs() < 1e-12);
        assert!((plain_slab(2.0, 1.25e-3, frequency) + 20.0 * 1.25f64.log10()).abs() < 1e-9);
    }
}
