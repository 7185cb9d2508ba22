//! How far the slabs are from the theory, and the bounds on that.

use crate::CONSTANTS;
use crate::report::{Section, db, largest};
use crate::slabs::{COURANT, Case, Line, band, cases, water};
use crate::theory;
use cichowiej::{Complex, Refusal};
use rayon::prelude::*;

/// The largest over the band: in dB and in degrees.
#[derive(Debug, Clone, Copy, Default)]
struct Error {
    db: f64,
    degrees: f64,
}

impl Error {
    fn take(&mut self, found: Complex, wanted: Complex) {
        let ratio = found / wanted;
        self.db = largest(self.db, db(ratio.norm()));
        self.degrees = largest(self.degrees, ratio.angle().to_degrees());
    }
}

/// Of a line against the theory; the last against the difference equations.
#[derive(Debug, Clone, Copy, Default)]
struct Errors {
    transmission: Error,
    /// Where the reflection is at least half of its largest.
    reflection: Error,
    /// The same, where it is at least each of `LEVELS` of its largest.
    by_level: [Error; 3],
    /// |R - R'| over the whole band.
    difference: f64,
    from_scheme: f64,
}

impl Errors {
    fn of(line: &Line) -> Result<Self, Refusal> {
        let found = line.measured()?;
        let theory: Vec<theory::Slab> =
            band().into_iter().map(|f| theory::slab(&line.case.material, line.thickness(), f, line.constants)).collect();
        let most = theory.iter().map(|slab| slab.reflection.norm()).fold(0.0, f64::max);
        let mut errors = Self::default();
        for ((found, wanted), f) in found.iter().zip(&theory).zip(band()) {
            errors.transmission.take(found.transmission, wanted.transmission);
            for (error, level) in errors.by_level.iter_mut().zip(LEVELS) {
                if wanted.reflection.norm() >= level * most {
                    error.take(found.reflection, wanted.reflection);
                }
            }
            errors.difference = largest(errors.difference, (found.reflection - wanted.reflection).norm());
            let hand = line.by_hand(f);
            for apart in [found.transmission - hand.transmission, found.reflection - hand.reflection] {
                errors.from_scheme = largest(errors.from_scheme, apart.norm());
            }
        }
        errors.reflection = errors.by_level[0];
        Ok(errors)
    }

    fn all(lines: &[Line]) -> Result<Vec<Self>, Refusal> {
        lines.par_iter().map(Self::of).collect()
    }

    fn four(&self) -> [f64; 4] {
        [self.transmission.db, self.transmission.degrees, self.reflection.db, self.reflection.degrees]
    }

    fn within(&self, db: f64, degrees: f64) -> bool {
        [self.transmission, self.reflection].iter().all(|error| error.db <= db && error.degrees <= degrees)
    }
}

const FINE: [usize; 3] = [10, 20, 40];

/// Parts of the largest reflection from which on it is counted. The bounds are on the first; the others show what that leaves out.
const LEVELS: [f64; 3] = [0.5, 0.3, 0.1];

fn line(case: &Case, fine: usize, courant: f64) -> Line {
    Line { case: case.clone(), fine, courant, constants: CONSTANTS }
}

/// Every slab at every size of cells.
pub fn slabs() -> Result<Section, Refusal> {
    let lines: Vec<Line> = cases().into_iter().flat_map(|case| FINE.map(|fine| line(&case, fine, COURANT))).collect();
    let errors = Errors::all(&lines)?;
    let mut out = Section::new("slabs");
    error_table(&mut out, &lines, &errors);
    fall_table(&mut out, &lines, &errors);
    level_table(&mut out, &lines, &errors);
    Ok(out)
}

fn error_table(out: &mut Section, lines: &[Line], errors: &[Errors]) {
    let heads =
        ["slab", "cells a wavelength", "T, dB", "T, degrees", "R, dB", "R, degrees", "abs(R - R'), dB", "from the scheme, dB"];
    let row = |(line, e): (&Line, &Errors)| {
        let mut row = vec![line.case.name.to_string(), line.fine.to_string()];
        row.extend(e.four().map(|error| format!("{error:.3}")));
        row.extend([e.difference, e.from_scheme].map(|ratio| format!("{:.1}", db(ratio))));
        row
    };
    out.table(&heads, &lines.iter().zip(errors).map(row).collect::<Vec<_>>());
    for (line, e) in lines.iter().zip(errors) {
        let name = format!("{} at {} cells", line.case.name, line.fine);
        out.must(e.from_scheme <= 1e-5, format!("{name} is not within -100 dB of the difference equations' own solution"));
        out.must(line.fine < 40 || e.within(0.1, 1.0), format!("{name} is not within 0.1 dB and 1 degree"));
    }
}

/// By how much the errors fall from each size of cells to the next.
fn fall_table(out: &mut Section, lines: &[Line], errors: &[Errors]) {
    let mut rows = Vec::new();
    for (lines, errors) in lines.windows(2).zip(errors.windows(2)).filter(|(lines, _)| lines[0].fine < lines[1].fine) {
        let name = format!("{}, {} to {}", lines[0].case.name, lines[0].fine, lines[1].fine);
        let falls: Vec<f64> = errors[0].four().iter().zip(errors[1].four()).map(|(coarse, fine)| coarse / fine).collect();
        out.must(falls.iter().all(|fall| (3.0..=5.0).contains(fall)), format!("{name}: an error does not fall by three to five"));
        rows.push([name].into_iter().chain(falls.iter().map(|fall| format!("{fall:.2}"))).collect());
    }
    out.table(&["errors fall by", "T, dB", "T, degrees", "R, dB", "R, degrees"], &rows);
}

/// What R would be at 40 cells, counted nearer to its zeros.
fn level_table(out: &mut Section, lines: &[Line], errors: &[Errors]) {
    let row = |(line, e): (&Line, &Errors)| {
        let numbers = e.by_level.iter().flat_map(|error| [error.db, error.degrees]).map(|error| format!("{error:.3}"));
        [line.case.name.to_string()].into_iter().chain(numbers).collect()
    };
    let heads = ["R at 40 cells, counted from", "0.5 of its largest, dB", "degrees", "0.3, dB", "degrees", "0.1, dB", "degrees"];
    out.table(&heads, &lines.iter().zip(errors).filter(|(line, _)| line.fine == 40).map(row).collect::<Vec<_>>());
}

/// Water at 40 cells a wavelength, with other time steps: its recursion is of first order in dt, all else of second.
pub fn time_steps() -> Result<Section, Refusal> {
    let case = Case { name: "Debye (water)", material: water() };
    let lines: Vec<Line> = [0.9, COURANT, 0.25, 0.125].map(|courant| line(&case, 40, courant)).into();
    let errors = Errors::all(&lines)?;
    let row = |(line, e): (&Line, &Errors)| {
        let numbers = e.four().map(|error| format!("{error:.3}"));
        [line.courant.to_string()].into_iter().chain(numbers).collect()
    };
    let mut out = Section::new("time steps");
    out.table(
        &["Courant number", "T, dB", "T, degrees", "R, dB", "R, degrees"],
        &lines.iter().zip(&errors).map(row).collect::<Vec<_>>(),
    );
    // an error a + b dt makes two steps' differences stand as the steps' own
    let by = |i: usize| (errors[i].transmission.db - errors[i + 1].transmission.db) / (lines[i].courant - lines[i + 1].courant);
    let slopes = [by(0), by(1), by(2)];
    out.say(format!(
        "T in dB grows with the Courant number by {:.3}, {:.3} and {:.3} for 1, from one line to the next.",
        slopes[0], slopes[1], slopes[2]
    ));
    let straight = slopes.iter().all(|slope| (slope / slopes[2] - 1.0).abs() <= 0.1);
    out.must(straight, "water's error does not grow in a straight line with the time step");
    Ok(out)
}
