//! The energy of a closed cavity without loss, over ten thousand steps.

use crate::CONSTANTS;
use crate::report::{Section, largest};
use cichowiej::{CellBox, Field, Grid, Put, Refusal, Source, Study};
use rayon::prelude::*;

const CELLS: [usize; 3] = [20, 18, 16];
const PITCH: f64 = 1e-3;
const STEPS: usize = 10_000;

/// Where the wave stands while the cavity is filled, well away from the walls, and the block that scatters it.
const REGION: [usize; 6] = [2, 16, 2, 14, 2, 12];
const BLOCK: CellBox = CellBox { x: (4, 11), y: (5, 13), z: (6, 12) };
const PERMITTIVITY: f64 = 4.0;

/// With the block left in it, or empty.
struct Cavity {
    name: &'static str,
    block: bool,
}

const CAVITIES: [Cavity; 2] =
    [Cavity { name: "vacuum", block: false }, Cavity { name: "with a block of permittivity 4", block: true }];

impl Cavity {
    fn grid() -> Grid {
        let (pitch, constants) = ([PITCH; 3], CONSTANTS);
        Grid { cells: CELLS, pitch, dt: 0.9 * constants.largest_dt(pitch), pole_slots: 0, constants }
    }

    /// Walls on all six sides, and in them what the block has scattered of a pulse: a box without it would give the whole wave back again.
    fn filled(&self) -> Result<Study, Refusal> {
        let mut study = Study::open(&Self::grid())?;
        study.set_boundary_conductor()?;
        study.put_box(BLOCK, Put::Numbers { eps_r: PERMITTIVITY, mu_r: 1.0, sigma: 0.0 })?;
        study.box_region(REGION)?;
        let source = Source::Modulated { amplitude: 1.0, width: 50e-12, delay: 250e-12, frequency: 20e9 };
        let dt = Self::grid().dt;
        study.run(&source.samples(0.0, dt, 0).take((5000e-12 / dt) as usize).collect::<Vec<f64>>())?;
        // set anew, the wave's own line is 0 throughout: from here on nothing enters
        study.box_region(REGION)?;
        if !self.block {
            study.put_box(BLOCK, Put::Numbers { eps_r: 1.0, mu_r: 1.0, sigma: 0.0 })?;
        }
        Ok(study)
    }

    /// The relative permittivity cell by cell, in the order of the fields.
    fn permittivity(&self) -> Vec<f64> {
        let [nx, ny, nz] = CELLS;
        let in_block = |at: usize| self.block && inside(&BLOCK, [at % nx, at / nx % ny, at / (nx * ny)]);
        (0..nx * ny * nz).map(|at| if in_block(at) { PERMITTIVITY } else { 1.0 }).collect()
    }

    fn run(&self) -> Result<Energies, Refusal> {
        let mut study = self.filled()?;
        let (permittivity, mut energies) = (self.permittivity(), Energies::default());
        for _ in 0..STEPS {
            let incident = (0..CELLS[2]).filter_map(|k| study.incident(k)).fold(0.0, largest);
            energies.incident = largest(energies.incident, incident);
            energies.told.push(study.total_energy()?);
            let before = study.clone();
            study.step(0.0)?;
            energies.kept.push(kept(&before, &study, &permittivity));
        }
        Ok(energies)
    }
}

fn inside(cells: &CellBox, at: [usize; 3]) -> bool {
    [cells.x, cells.y, cells.z].iter().zip(at).all(|((from, to), i)| (*from..*to).contains(&i))
}

/// ½ Σ ε E E + ½ Σ μ H H', with the H half a step before E and the H' half a step after it: what the difference equations keep.
fn kept(before: &Study, after: &Study, permittivity: &[f64]) -> f64 {
    let mut sum = 0.0;
    for axis in 0..3 {
        let (e, h, next) = (
            before.component(Field::Electric, axis),
            before.component(Field::Magnetic, axis),
            after.component(Field::Magnetic, axis),
        );
        sum += CONSTANTS.eps0() * e.iter().zip(permittivity).map(|(e, eps)| eps * e * e).sum::<f64>();
        sum += CONSTANTS.mu0() * h.iter().zip(next).map(|(h, next)| h * next).sum::<f64>();
    }
    0.5 * sum * PITCH.powi(3)
}

/// At each step: what `total_energy` tells, and what is kept.
#[derive(Default)]
struct Energies {
    told: Vec<f64>,
    kept: Vec<f64>,
    /// The largest number of the wave's own line.
    incident: f64,
}

/// In units of the first thousand's mean.
struct Run {
    least: f64,
    most: f64,
    last: f64,
}

fn judged(energies: &[f64]) -> Run {
    let mean = |part: &[f64]| part.iter().sum::<f64>() / part.len() as f64;
    let unit = mean(&energies[..1000]);
    let least = energies.iter().copied().fold(f64::INFINITY, f64::min);
    let most = energies.iter().copied().fold(0.0, largest);
    Run { least: least / unit, most: most / unit, last: mean(&energies[energies.len() - 1000..]) / unit }
}

pub fn section() -> Result<Section, Refusal> {
    let runs = CAVITIES.par_iter().map(Cavity::run).collect::<Result<Vec<Energies>, Refusal>>()?;
    let mut out = Section::new("cavity");
    let mut rows = Vec::new();
    for (cavity, energies) in CAVITIES.iter().zip(&runs) {
        let (told, kept) = (judged(&energies.told), judged(&energies.kept));
        rows.push(
            [cavity.name.to_string()].into_iter().chain([told.least, told.most, told.last].map(|x| format!("{x:.4}"))).collect(),
        );
        let spread = kept.most - kept.least;
        let name = cavity.name;
        out.must(told.least >= 0.8 && told.most <= 1.2, format!("{name}: the energy leaves the band from 0.8 to 1.2"));
        out.must((told.last - 1.0).abs() <= 0.01, format!("{name}: the energy's mean moves by more than a hundredth"));
        out.must(spread <= 1e-13, format!("{name}: the energy that the equations keep moves by more than 1e-13"));
        out.must(energies.incident == 0.0, format!("{name}: the wave's own line is not quiet"));
    }
    out.table(&["cavity", "least", "most", "mean of the last thousand"], &rows);
    if out.faults.is_empty() {
        out.say("What the difference equations keep moves by less than 1e-13 of itself.");
    }
    Ok(out)
}
