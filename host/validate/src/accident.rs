//! The mills' accident: the absorbing layer asked for on an axis that is too thin for it. It is told, and nothing else stops.
//! Here is the curve that such a head would have given.

use crate::CONSTANTS;
use crate::report::{Section, db};
use crate::slabs::{COURANT, water};
use crate::theory;
use cichowiej::{CellBox, CpmlConfig, Grid, Layer, Material, PlaneSpectrum, Pole, Put, Refusal, Source, Study};
use rayon::prelude::*;

/// Copy paper of 80 g/m²: 76 g/m² of it dry, 104 µm thick, in SI.
const DRY: f64 = 0.076;
const CALIPER: f64 = 104e-6;
const FIBRE_DENSITY: f64 = 1550.0;
const FIBRE_PERMITTIVITY: f64 = 6.5;
const WATER_DENSITY: f64 = 998.2;

const MOISTURES: [f64; 5] = [2.0, 4.0, 6.0, 8.0, 10.0];
const FREQUENCY: f64 = 10e9;

/// The head: a line of cells, five of them the sheet, which stands between the wave's two planes.
const CELLS: usize = 60;
const SHEET: (usize, usize) = (28, 33);
const WAVE: (usize, usize) = (24, 37);
const BEHIND: usize = 35;

/// The layer that fits, and the one that needs two cells more than the head has.
const FITS: usize = 20;
const TOO_THICK: usize = 30;

/// The sheet at a moisture in percent of the wet sheet's weight: fibre, water and air by their shares of the volume.
fn sheet(moisture: f64) -> Material {
    let fibre = DRY / FIBRE_DENSITY / CALIPER;
    let wet = DRY * moisture / (100.0 - moisture) / WATER_DENSITY / CALIPER;
    let water = water();
    let share = |pole: &Pole| match *pole {
        Pole::Debye { delta_eps, tau } => Pole::Debye { delta_eps: wet * delta_eps, tau },
        other => other,
    };
    let poles = water.poles.iter().map(share).collect();
    Material { poles, ..Material::plain(1.0 - fibre - wet + fibre * FIBRE_PERMITTIVITY + wet * water.eps_inf) }
}

/// What comes through at the gauge's frequency, and what was told of the layer.
fn through(moisture: Option<f64>, thickness: usize) -> Result<(f64, Layer), Refusal> {
    let pitch = [CALIPER / (SHEET.1 - SHEET.0) as f64; 3];
    let dt = COURANT * CONSTANTS.largest_dt(pitch);
    let grid = Grid { cells: [1, 1, CELLS], pitch, dt, pole_slots: 1, constants: CONSTANTS };
    let mut study = Study::open(&grid)?;
    study.set_periodic([true, true, false])?;
    let layer = study.set_boundary_cpml(&CpmlConfig { thickness, axes: [false, false, true], ..CpmlConfig::default() })?;
    if let Some(moisture) = moisture {
        let id = study.add_material(&sheet(moisture))?;
        study.put_box(CellBox::planes(SHEET.0, SHEET.1), Put::Library(id))?;
    }
    study.build_dispersion()?;
    study.slab_z(WAVE.0, WAVE.1)?;
    let mut spectrum = PlaneSpectrum::new(BEHIND, &[FREQUENCY], grid.dt);
    let width = 1.0 / FREQUENCY;
    let source = Source::Modulated { amplitude: 1.0, width, delay: 5.0 * width, frequency: FREQUENCY };
    for sample in source.samples(0.0, grid.dt, 0).take((20.0 * width / grid.dt) as usize) {
        study.step(sample)?;
        spectrum.take(&study);
    }
    Ok((spectrum.sums()[0].norm(), layer))
}

/// A head's curve: the transmission in dB against the empty head.
struct Curve {
    layer: Layer,
    empty: f64,
    values: Vec<f64>,
}

fn curve(thickness: usize) -> Result<Curve, Refusal> {
    let points: Vec<Option<f64>> = [None].into_iter().chain(MOISTURES.map(Some)).collect();
    let read =
        points.into_par_iter().map(|moisture| through(moisture, thickness)).collect::<Result<Vec<(f64, Layer)>, Refusal>>()?;
    let (empty, layer) = read[0];
    Ok(Curve { layer, empty, values: read[1..].iter().map(|(field, _)| db(field / empty)).collect() })
}

pub fn section() -> Result<Section, Refusal> {
    let mut out = Section::new("accident");
    let (works, missing) = (curve(FITS)?, curve(TOO_THICK)?);
    let by_theory = |moisture| theory::slab(&sheet(moisture), CALIPER, FREQUENCY, CONSTANTS);
    let theory = MOISTURES.map(|moisture| db(by_theory(moisture).transmission.norm()));
    told(&mut out, &works, &missing);
    let mut rows = Vec::new();
    for (i, moisture) in MOISTURES.iter().enumerate() {
        let three = [theory[i], works.values[i], missing.values[i]];
        rows.push([moisture.to_string()].into_iter().chain(three.map(|x| format!("{x:.3}"))).collect());
        out.must(
            (works.values[i] - theory[i]).abs() <= 0.001,
            format!("{moisture} %: the head with its layer is not within 0.001 dB of the theory"),
        );
        out.must(
            (missing.values[i] - theory[i]).abs() >= 0.05,
            format!("{moisture} %: the missing layer makes no difference of 0.05 dB"),
        );
    }
    out.table(&["moisture, %", "theory, dB", "layer works, dB", "layer missing, dB"], &rows);
    misread(&mut out, &works.values, &missing.values);
    Ok(out)
}

/// What the library says of the two layers.
fn told(out: &mut Section, works: &Curve, missing: &Curve) {
    for (thickness, curve) in [(FITS, works), (TOO_THICK, missing)] {
        let [.., z] = curve.layer.active;
        let answer = if z { "works on z" } else { "MISSING on z" };
        out.say(format!("{CELLS} cells and a layer of {thickness}, which needs {}: {answer}.", 2 * thickness + 2));
    }
    out.must(works.layer.is_whole(), "the layer that fits is missing");
    out.must(missing.layer.missing() == [false, false, true], "the layer that does not fit is not told as missing on z");
    out.say(format!(
        "The empty head without the layer has {:.2} dB of the field that it has with it.",
        db(missing.empty / works.empty)
    ));
}

/// What the missing layer's curve makes of the right head's readings at 6 and 8 %.
fn misread(out: &mut Section, works: &[f64], missing: &[f64]) {
    let slope = (missing[3] - missing[2]) / (MOISTURES[3] - MOISTURES[2]);
    let read = MOISTURES[2] + (works[2] - missing[2]) / slope;
    let moved = MOISTURES[2] + (works[3] - works[2]) / slope;
    let [.., at, wetter, _] = MOISTURES;
    out.say(format!(
        "A sheet of {at} % read by the second curve, carried on in a straight line: {read:.1} %. \
         With that curve set right at {at} %, a sheet of {wetter} %: {moved:.1} %."
    ));
}
