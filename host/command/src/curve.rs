//! The curve's numbers, with what a reader has to be told first.

mod checks;
mod phase;
pub mod plan;
mod refused;
pub mod study;
pub mod warnings;

use crate::curve::plan::{Plan, WetSheet};
use crate::curve::study::Reading;
use crate::curve::warnings::Warning;
use cichowiej::{Complex, Constants, Layer, maths};

/// At one gauge frequency, against the empty head.
#[derive(Debug, Clone, Copy, PartialEq)]
pub struct Value {
    /// The transmission in dB.
    pub db: f64,
    /// Its phase in degrees; a wave that comes later has a lower one. The lowest moisture's is from -180 to 180, whatever whole turns it really has; any other's
    /// is the one nearest to that of the next lower moisture, and true to it where the phase moves by less than half a turn between the two.
    pub degrees: f64,
    /// The part of the incident power that comes back, if a plane for it is given.
    pub reflected: Option<f64>,
}

/// A moisture's line of the table.
#[derive(Debug, Clone)]
pub struct Row {
    pub sheet: WetSheet,
    pub values: Vec<Value>,
    /// The energy through the plane, against the empty head's.
    pub energy: f64,
}

/// The curve, as it is printed, drawn and written.
#[derive(Debug, Clone)]
pub struct Curve {
    pub title: String,
    pub frequencies: Vec<f64>,
    pub rows: Vec<Row>,
    pub layer: Option<Layer>,
    pub constants: Constants,
    pub warnings: Vec<Warning>,
    /// How it was computed, and where the sheet's numbers come from.
    pub notes: Vec<String>,
}

impl Curve {
    /// The readings stand in the order of the plan's points, the empty head first.
    pub fn new(plan: &Plan, title: String, readings: &[Reading]) -> Self {
        let empty = &readings[0];
        let points = plan.points.iter().zip(readings);
        // without boxes the empty head is air alone
        let air = points.clone().find(|(point, _)| !point.boxes).map_or(empty, |(_, reading)| reading);
        let mut curve = Self {
            title,
            frequencies: plan.frequencies.clone(),
            rows: phase::joined(
                points.filter_map(|(point, reading)| Some(row(point.sheet.clone()?, reading, empty, air))).collect(),
            ),
            layer: empty.layer,
            constants: plan.grid.constants,
            warnings: Vec::new(),
            notes: notes(plan),
        };
        curve.warnings = warnings::all(plan, readings, &curve);
        curve
    }

    /// Asked for and not active on some axis.
    pub fn layer_is_missing(&self) -> bool {
        self.layer.is_some_and(|layer| !layer.is_whole())
    }

    /// Whether a plane for what comes back was given.
    pub fn has_reflected(&self) -> bool {
        self.rows.iter().flat_map(|row| &row.values).any(|value| value.reflected.is_some())
    }

    pub fn told(&self) -> String {
        told(self.layer)
    }

    /// A value that is no number.
    pub fn has_no_number(&self) -> bool {
        let finite =
            |value: &Value| value.db.is_finite() && value.degrees.is_finite() && value.reflected.is_none_or(f64::is_finite);
        !self.rows.iter().all(|row| row.energy.is_finite() && row.values.iter().all(finite))
    }

    /// The layer's line, and each warning.
    pub fn first_lines(&self) -> impl Iterator<Item = String> + '_ {
        [self.told()].into_iter().chain(self.warnings.iter().map(Warning::to_string))
    }
}

/// What stands first everywhere: where the absorbing layer was asked for, and where it works.
pub fn told(layer: Option<Layer>) -> String {
    let Some(layer) = layer else {
        return "absorbing layer: none asked for".into();
    };
    let (asked, active) = (named(layer.asked), named(layer.active));
    if layer.is_whole() {
        return format!("absorbing layer: asked for on {asked}, works on {active}");
    }
    let missing = named(layer.missing());
    format!(
        "ABSORBING LAYER MISSING ON {missing}: asked for on {asked}, works on {active}. On {missing} the wall reflects, and this is not the gauge's curve: \
         take 2 thickness + 2 cells or more along {missing}, or a thinner layer"
    )
}

/// A line for constants that are not the old ones, where the grid's other numbers do not stand.
pub fn other_constants(constants: Constants) -> Option<String> {
    (constants != Constants::Old).then(|| format!("constants of vacuum: {constants}"))
}

/// Axes by their names.
pub fn named(axes: [bool; 3]) -> String {
    let names: Vec<&str> = ["x", "y", "z"].into_iter().zip(axes).filter(|(_, on)| *on).map(|(name, _)| name).collect();
    if names.is_empty() { "no axis".into() } else { names.join(", ") }
}

/// What comes back has an echo of the incident wave's own line in it (docs/VALIDATION.md), which air alone has too: it is taken off. The incident wave is what air
/// alone lets through.
fn row(sheet: WetSheet, reading: &Reading, empty: &Reading, air: &Reading) -> Row {
    let (sums, air) = (&reading.sums, &air.sums);
    let back = |f: usize| Some((sums.reflected.as_ref()?[f] - air.reflected.as_ref()?[f]).norm() / air.transmitted[f].norm());
    let value = |f: usize| {
        let ratio: Complex = sums.transmitted[f] / empty.sums.transmitted[f];
        Value {
            db: 20.0 * maths::log10(ratio.norm()),
            degrees: ratio.angle().to_degrees(),
            reflected: back(f).map(|part| part * part),
        }
    };
    Row { sheet, values: (0..sums.transmitted.len()).map(value).collect(), energy: reading.energy / empty.energy }
}

fn notes(plan: &Plan) -> Vec<String> {
    let [nx, ny, nz] = plan.grid.cells;
    let stepped = format!(
        "{} steps of {:e} s on {nx} x {ny} x {nz} cells, Courant number {:.4}, constants of vacuum: {}",
        plan.steps,
        plan.grid.dt,
        plan.grid.courant_number(),
        plan.grid.constants
    );
    let paper = plan.head.sheet.paper.as_ref();
    let origins = paper.map(|paper| [paper.fibre.origin("fibre"), paper.water.origin("water")]);
    [stepped].into_iter().chain(origins.into_iter().flatten()).collect()
}
