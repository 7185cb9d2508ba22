//! The run: stable, long enough, with a source that has the gauge's frequencies.

use crate::curve::plan::{Plan, Point};
use crate::curve::study::{AIR, Reading};
use crate::curve::{Curve, Row, Value};
use crate::output::table::in_hertz;
use cichowiej::{PlaneSpectrum, Source, maths};

/// The field's energy at the end may be this part of its largest.
const QUIET: f64 = 1e-6;

/// The part of itself by which a Fourier sum may move in the last fifth of the run: 0.01 dB.
const AT_REST: f64 = 1e-3;

/// By how many degrees the phase may move between two moistures, before half a turn.
const TURNING: f64 = 120.0;

/// The part of a source's whole that it has to have at a gauge frequency, and how many of its samples are looked at.
const FAINT: f64 = 1e-3;
const LONGEST_SOURCE: usize = 1 << 20;

const NO_NUMBER: &str = "some values are no numbers: the field never came to the plane, or grew without end; look at periodic, the wave, the source's delay and the materials";

pub fn no_number(curve: &Curve) -> Option<String> {
    curve.has_no_number().then(|| NO_NUMBER.into())
}

/// The same of a study by itself: what is against the empty head is not known yet.
pub fn no_reading(reading: &Reading) -> Option<String> {
    let sums = reading.sums.transmitted.iter().chain(reading.sums.reflected.iter().flatten());
    let finite = sums.flat_map(|sum| [sum.re, sum.im]).chain([reading.energy, reading.end, reading.peak]).all(f64::is_finite);
    (!finite).then(|| NO_NUMBER.into())
}

/// In air the field then grows for certain; in a material it can, and a thin sheet of it may stay a little beyond its limit.
pub fn unstable(plan: &Plan) -> Option<String> {
    let (courant, (limit, place)) = (plan.grid.courant_number(), plan.courant_limit());
    let stable = courant <= limit;
    (!stable).then(|| {
        let grows = if place == AIR { "grows" } else { "can grow" };
        format!("the Courant number is {courant:.3}: above {limit:.3} the field {grows} without end in {place}; take a smaller dt or courant")
    })
}

pub fn endless(plan: &Plan) -> Option<String> {
    matches!(plan.source, Source::Continuous { .. })
        .then(|| "a continuous wave does not end: the curve has its beginning in it; take a pulse (gaussian or modulated)".into())
}

/// What is said of studies that were not run to their end: of the worst one, and of how many.
fn too_few(what: &str, name: &str, found: usize, all: usize, most: f64) -> String {
    format!(
        "steps too few: {what} in {name}; {found} of {all} studies have more than {most:e}; take more steps, and a delay of 4 widths or more for the pulse"
    )
}

/// A study: its point, and what it gave.
pub type Studied<'a> = (&'a Point, &'a Reading);

/// How many studies have a number above the limit, and the one with the largest.
fn above<'a>(studies: &[Studied<'a>], limit: f64, number: impl Fn(&Reading) -> f64) -> Option<(usize, Studied<'a>)> {
    let above = || studies.iter().copied().filter(|(_, reading)| number(reading) > limit);
    let worst = above().max_by(|(_, a), (_, b)| number(a).total_cmp(&number(b)))?;
    Some((above().count(), worst))
}

/// By the field's energy or, where that is quiet, by the sums. A wave without an end is not asked to have one.
pub fn unfinished(plan: &Plan, studies: &[Studied]) -> Option<String> {
    if endless(plan).is_some() { None } else { loud(studies).or_else(|| moving(plan, studies)) }
}

/// The field's energy at the end, against its largest.
fn loud(studies: &[Studied]) -> Option<String> {
    let left = |reading: &Reading| reading.end / reading.peak;
    let (count, (point, reading)) = above(studies, QUIET, left)?;
    let what = format!("at the end {:.2e} times the field's largest energy is left", left(reading));
    Some(too_few(&what, &point.name(), count, studies.len(), QUIET))
}

/// At a frequency of which the pulse has little the energy tells nothing: the sums themselves have to have come to rest.
fn moving(plan: &Plan, studies: &[Studied]) -> Option<String> {
    let through = |f: usize| studies.iter().map(|(_, reading)| reading.sums.through(f)).fold(0.0, f64::max);
    let most: Vec<f64> = (0..plan.frequencies.len()).map(through).collect();
    let moved = |reading: &Reading| {
        let each = most.iter().zip(&plan.frequencies).enumerate();
        let parts = each.map(|(f, (most, frequency))| (reading.moved(f, *most), *frequency));
        parts.fold((0.0, 0.0), |worst, next| if next.0 > worst.0 { next } else { worst })
    };
    let (count, (point, reading)) = above(studies, AT_REST, |reading| moved(reading).0)?;
    let (part, frequency) = moved(reading);
    let what = format!("in the last fifth of the run the sums at {} still moved by {part:.2e}", in_hertz(frequency));
    Some(too_few(&what, &point.name(), count, studies.len(), AT_REST))
}

/// More than was sent. Where the head has boxes, a sheet may help the wave through them.
pub fn gained(plan: &Plan, curve: &Curve) -> Option<String> {
    let most_through = if plan.head.boxes.is_empty() { 0.005 } else { 0.5 };
    let both = |value: &Value| maths::powf(10.0, value.db / 10.0) + value.reflected.unwrap_or(0.0);
    let most_together = if plan.head.boxes.is_empty() { 1.001 } else { f64::INFINITY };
    let gains = |value: &Value| value.db > most_through || value.reflected > Some(1.001) || both(value) > most_together;
    curve.rows.iter().flat_map(|row| &row.values).any(gains).then(|| {
        "more comes back or through than is sent: this is no gauge's curve; look at the source's frequency, the layer and the boxes".into()
    })
}

/// Whole turns of the phase are counted from moisture to moisture, which cannot be where it moves by half a turn in between.
pub fn turning(curve: &Curve) -> Option<String> {
    let mut rows: Vec<&Row> = curve.rows.iter().collect();
    rows.sort_by(|a, b| a.sheet.moisture.total_cmp(&b.sheet.moisture));
    let moved = |(a, b): (&Value, &Value)| (b.degrees - a.degrees).abs();
    let pairs = rows.iter().zip(rows.iter().skip(1));
    let steps = pairs.flat_map(|(a, b)| {
        let each = a.values.iter().zip(&b.values).map(moved).zip(&curve.frequencies);
        each.map(|(degrees, frequency)| (degrees, *frequency, a.sheet.moisture, b.sheet.moisture))
    });
    let (degrees, frequency, from, to) = steps.filter(|step| step.0 > TURNING).max_by(|a, b| a.0.total_cmp(&b.0))?;
    Some(format!(
        "the phase at {} moves by {degrees:.0} degrees from moisture {from} % to {to} %, and may have lost a turn: take moistures in between",
        in_hertz(frequency)
    ))
}

/// A frequency of which the source has next to nothing is read from the noise.
pub fn faint(plan: &Plan) -> Option<String> {
    let dt = plan.grid.dt;
    let samples: Vec<f64> = plan.source.samples(0.0, dt, 0).take(plan.steps.min(LONGEST_SOURCE)).collect();
    let whole: f64 = samples.iter().map(|sample| sample.abs() * dt).sum();
    let part = |frequency: f64| {
        let mut spectrum = PlaneSpectrum::new(0, &[frequency], dt);
        samples.iter().for_each(|sample| spectrum.add(*sample));
        spectrum.sums().iter().map(|sum| sum.norm()).sum::<f64>() / whole
    };
    let heard = |frequency: &f64| part(*frequency) >= FAINT;
    let faint = plan.frequencies.iter().copied().find(|frequency| !heard(frequency))?;
    Some(format!(
        "the source has next to nothing at {}: take a source around it or a shorter pulse (a frequency without a unit is in Hz)",
        in_hertz(faint)
    ))
}
