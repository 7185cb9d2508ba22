//! What a line of a script asks for.

use super::words::{Words, read};
use crate::head::constants;
use crate::head::units::{Conductivity, Frequency, Length, Rate, Time};
use crate::text::Kind;
use cichowiej::{CellBox, Constants, CpmlConfig, Grid, Material, Pole, Source};
use std::path::{Path, PathBuf};

#[derive(Debug, Clone)]
pub enum Statement {
    /// `size` and the `pitch` behind it. A refusal of the sizes is the first one's.
    Open {
        grid: Grid,
        size_line: usize,
    },
    Material {
        name: String,
        material: Material,
        /// The lines of its poles.
        pole_lines: Vec<usize>,
    },
    Box {
        material: String,
        cells: CellBox,
    },
    Halfspace {
        material: String,
        k0: usize,
    },
    Numbers {
        cells: CellBox,
        eps_r: f64,
        mu_r: f64,
        sigma: f64,
    },
    Edge(Edge),
    Periodic([bool; 3]),
    Wave(Wave),
    Build,
    Run {
        steps: u32,
        source: Option<Source>,
        /// The file that the source was read from, if it is a table.
        table: Option<PathBuf>,
    },
    Energy,
    Plane(usize),
    Reset,
    Save(PathBuf),
    Rewind(PathBuf),
}

#[derive(Debug, Clone)]
pub enum Edge {
    Periodic,
    Conductor,
    Lossy { thickness: usize, order: usize, sigma_max: f64 },
    Layer(CpmlConfig),
}

#[derive(Debug, Clone, Copy)]
pub enum Wave {
    Slab { k0: usize, k1: usize },
    Injector { k0: usize },
    Box { corners: [usize; 6] },
}

/// The first words, for a message.
const KINDS: &str =
    "size, pitch, material, pole, box, halfspace, numbers, edge, periodic, wave, build, run, energy, plane, reset, save, rewind";

/// A line with its first word taken; `size`, `pitch` and `pole` belong to a line before or behind them and are read elsewhere.
pub fn statement(kind: &str, words: &mut Words) -> Result<Statement, String> {
    Ok(match kind {
        "material" => material(words)?,
        "box" => Statement::Box { material: words.needed("a material")?, cells: cells(words)? },
        "halfspace" => Statement::Halfspace { material: words.needed("a material")?, k0: words.number("k0")? },
        "numbers" => Statement::Numbers {
            eps_r: words.number_of("eps_r")?,
            mu_r: words.number_of("mu_r")?,
            sigma: words.quantity("sigma", Conductivity::read)?,
            cells: cells(words)?,
        },
        "edge" => Statement::Edge(edge(words)?),
        "periodic" => Statement::Periodic(axes(&words.needed("axes, as xy, or none")?)?),
        "wave" => Statement::Wave(wave(words)?),
        "build" => Statement::Build,
        "run" => run(words)?,
        "energy" => Statement::Energy,
        "plane" => Statement::Plane(words.number("k")?),
        "reset" => Statement::Reset,
        "save" => Statement::Save(words.file("a file")?),
        "rewind" => Statement::Rewind(words.file("a file")?),
        _ => return Err(format!("there is no {kind:?}: take one of {KINDS}")),
    })
}

/// What a line `size` has.
pub struct Size {
    cells: [usize; 3],
    pole_slots: usize,
    constants: Constants,
}

/// Of `size`.
pub fn size(words: &mut Words) -> Result<Size, String> {
    let cells = [words.number("nx")?, words.number("ny")?, words.number("nz")?];
    let named = |name: String| constants::read(&name).map_err(|message| format!("constants: {message}"));
    let constants = words.pair("constants").map_or(Ok(Constants::default()), named)?;
    Ok(Size { cells, pole_slots: words.number_or("poles", 0)?, constants })
}

/// Of `pitch`: the cell's sizes and the time step, behind a `size`.
pub fn grid(size: Size, words: &mut Words) -> Result<Grid, String> {
    let Size { cells, pole_slots, constants } = size;
    let mut length = |what: &str| Length::read(&words.needed(what)?);
    let dx = length("a length")?;
    let pitch = match words.next() {
        None => [dx; 3],
        Some(dy) => [dx, Length::read(&dy)?, Length::read(&words.needed("dz")?)?],
    };
    let dt = match (words.pair("dt"), words.pair("courant")) {
        (Some(dt), None) => Time::read(&dt)?,
        (None, Some(courant)) => read::<f64>(&courant, "courant")? * constants.largest_dt(pitch),
        _ => return Err("it needs dt= or courant=, one of the two".into()),
    };
    Ok(Grid { cells, pitch, dt, pole_slots, constants })
}

fn material(words: &mut Words) -> Result<Statement, String> {
    let name = words.needed("a name")?;
    if name == "vacuum" || name.chars().all(|c| c.is_ascii_digit()) {
        return Err(format!("{name:?} is taken: vacuum and numbers name materials that a study has already"));
    }
    let sigma = words.pair("sigma").map_or(Ok(0.0), |word| Conductivity::read(&word))?;
    let material =
        Material { eps_inf: words.number_of("eps_inf")?, sigma, mu_r: words.number_or("mu_r", 1.0)?, poles: Vec::new() };
    Ok(Statement::Material { name, material, pole_lines: Vec::new() })
}

/// Of `pole`.
pub fn pole(words: &mut Words) -> Result<Pole, String> {
    match words.needed("lorentz, drude or debye")?.as_str() {
        "lorentz" => Ok(Pole::Lorentz {
            delta_eps: words.number_of("delta_eps")?,
            omega0: words.quantity("omega0", Rate::read)?,
            gamma: words.quantity("gamma", Rate::read)?,
        }),
        "drude" => {
            Ok(Pole::Drude { omega_p: words.quantity("omega_p", Rate::read)?, gamma: words.quantity("gamma", Rate::read)? })
        }
        "debye" => Ok(Pole::Debye { delta_eps: words.number_of("delta_eps")?, tau: words.quantity("tau", Time::read)? }),
        other => Err(format!("there is no {other:?}: take lorentz, drude or debye")),
    }
}

/// Ranges as x=0:4, the upper end not in it; an axis that is left out is the whole axis.
fn cells(words: &mut Words) -> Result<CellBox, String> {
    let mut range = |name: &str| -> Result<(usize, usize), String> {
        let Some(word) = words.pair(name) else { return Ok((0, usize::MAX)) };
        let (from, to) = word.split_once(':').ok_or_else(|| format!("{name}: {word:?} is no range as 0:4"))?;
        Ok((read(from, name)?, read(to, name)?))
    };
    Ok(CellBox { x: range("x")?, y: range("y")?, z: range("z")? })
}

/// The letters of x, y and z, each at most once; or none.
fn axes(word: &str) -> Result<[bool; 3], String> {
    if word == "none" {
        return Ok([false; 3]);
    }
    let found = ['x', 'y', 'z'].map(|axis| word.matches(axis).count());
    let good = found.iter().all(|count| *count <= 1) && word.len() == found.iter().sum::<usize>() && !word.is_empty();
    if good { Ok(found.map(|count| count == 1)) } else { Err(format!("{word:?} names no axes: take letters of xyz, or none")) }
}

fn edge(words: &mut Words) -> Result<Edge, String> {
    match words.needed("periodic, conductor, lossy or layer")?.as_str() {
        "periodic" => Ok(Edge::Periodic),
        "conductor" => Ok(Edge::Conductor),
        "lossy" => Ok(Edge::Lossy {
            thickness: words.number_of("thickness")?,
            order: words.number_of("order")?,
            sigma_max: words.quantity("sigma_max", Conductivity::read)?,
        }),
        "layer" => layer(words).map(Edge::Layer),
        other => Err(format!("there is no {other:?}: take periodic, conductor, lossy or layer")),
    }
}

fn layer(words: &mut Words) -> Result<CpmlConfig, String> {
    let usual = CpmlConfig::default();
    Ok(CpmlConfig {
        axes: axes(&words.value("axes")?)?,
        thickness: words.number_or("thickness", usual.thickness)?,
        order: words.number_or("order", usual.order)?,
        kappa_max: words.number_or("kappa_max", usual.kappa_max)?,
        alpha_factor: words.number_or("alpha_factor", usual.alpha_factor)?,
        alpha_order: words.number_or("alpha_order", usual.alpha_order)?,
        target_reflection: words.number_or("target_reflection", usual.target_reflection)?,
        sigma_scale: words.number_or("sigma_scale", usual.sigma_scale)?,
    })
}

fn wave(words: &mut Words) -> Result<Wave, String> {
    match words.needed("slab, injector or box")?.as_str() {
        "slab" => Ok(Wave::Slab { k0: words.number("k0")?, k1: words.number("k1")? }),
        "injector" => Ok(Wave::Injector { k0: words.number("k0")? }),
        "box" => {
            let mut corners = [0; 6];
            for (corner, name) in corners.iter_mut().zip(["i0", "i1", "j0", "j1", "k0", "k1"]) {
                *corner = words.number(name)?;
            }
            Ok(Wave::Box { corners })
        }
        other => Err(format!("there is no {other:?}: take slab, injector or box")),
    }
}

/// Of `run`; no source is a wave of nothing.
fn run(words: &mut Words) -> Result<Statement, String> {
    let steps = words.number("the number of steps")?;
    let (source, table) = match words.next().as_deref() {
        None => (None, None),
        Some("table") => {
            let file = words.file("a file of numbers")?;
            (Some(read_table(&file)?), Some(file))
        }
        Some(kind) => (Some(source(kind, words)?), None),
    };
    Ok(Statement::Run { steps, source, table })
}

fn read_table(file: &Path) -> Result<Source, String> {
    let (text, name) = (Kind::TABLE.read_text(file)?, file.display().to_string());
    let samples: Vec<f64> = text.split_whitespace().map(|word| read(word, &name)).collect::<Result<_, _>>()?;
    // as a pipe has it that was read before
    if samples.is_empty() { Err(format!("{name}: there is no number in it")) } else { Ok(Source::Table { samples }) }
}

fn source(kind: &str, words: &mut Words) -> Result<Source, String> {
    let amplitude = words.number_or("amplitude", 1.0)?;
    let mut time = |name| words.quantity(name, Time::read);
    Ok(match kind {
        "gaussian" => Source::Gaussian { amplitude, width: time("width")?, delay: time("delay")? },
        "modulated" => {
            let (width, delay) = (time("width")?, time("delay")?);
            Source::Modulated { amplitude, width, delay, frequency: words.quantity("frequency", Frequency::read)? }
        }
        "continuous" => {
            let ramp = time("ramp")?;
            Source::Continuous { amplitude, ramp, frequency: words.quantity("frequency", Frequency::read)? }
        }
        other => return Err(format!("there is no source {other:?}: take gaussian, modulated, continuous or table")),
    })
}
