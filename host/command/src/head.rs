//! A gauge head's file (HEAD.toml): what is in it.

pub mod choice;
pub mod constants;
pub mod lines;
pub mod mixture;
pub mod trouble;
pub mod units;

use crate::choice;
use crate::document;
use crate::head::mixture::Paper;
use crate::head::trouble::Trouble;
use crate::head::units::{Conductivity, Density, Frequency, Grammage, Length, Pitch, Rate, Time};
use cichowiej::{CellBox, Constants, CpmlConfig, Grid, Material, Pole, Source};
use serde::Deserialize;
use std::collections::BTreeMap;

/// The whole file.
#[derive(Debug, Deserialize)]
#[serde(deny_unknown_fields)]
pub struct Head {
    pub title: Option<String>,
    pub grid: GridPart,
    #[serde(default)]
    pub periodic: Vec<AxisName>,
    pub edge: Edge,
    #[serde(default)]
    pub materials: BTreeMap<String, MaterialPart>,
    #[serde(default)]
    pub boxes: Vec<BoxPart>,
    pub wave: Wave,
    pub source: SourcePart,
    pub planes: Planes,
    pub gauge: Gauge,
    pub run: Run,
    pub sheet: Sheet,
}

impl Head {
    pub fn parse(text: &str) -> Result<Self, Trouble> {
        document::parse(text)
    }
}

#[derive(Debug, Clone, Copy, PartialEq, Eq, Deserialize)]
#[serde(rename_all = "lowercase")]
pub enum AxisName {
    X,
    Y,
    Z,
}

/// Which of x, y and z are named.
pub fn axes(names: &[AxisName]) -> [bool; 3] {
    [AxisName::X, AxisName::Y, AxisName::Z].map(|axis| names.contains(&axis))
}

#[derive(Debug, Deserialize)]
#[serde(deny_unknown_fields)]
pub struct GridPart {
    pub cells: [usize; 3],
    pub pitch: Pitch,
    /// One of the two.
    pub dt: Option<Time>,
    pub courant: Option<f64>,
    /// As many as the materials need if not given.
    pub pole_slots: Option<usize>,
    /// The old ones if not given, which every head has that was written before there was a choice.
    #[serde(default, with = "constants")]
    pub constants: Constants,
}

choice! {
    /// What ends the axes that are not periodic.
    Edge { "layer" => Layer(LayerPart), "conductor" => Conductor(Nothing), "lossy" => Lossy(LossyPart) }
}

#[derive(Debug, Clone, Copy, Deserialize)]
#[serde(deny_unknown_fields)]
pub struct Nothing {}

#[derive(Debug, Clone, Copy, Deserialize)]
#[serde(deny_unknown_fields)]
pub struct LossyPart {
    pub thickness: usize,
    pub order: usize,
    pub sigma_max: Conductivity,
}

#[derive(Debug, Clone, Deserialize)]
#[serde(deny_unknown_fields, default)]
pub struct LayerPart {
    pub axes: Vec<AxisName>,
    pub thickness: usize,
    pub order: f64,
    pub kappa_max: f64,
    pub alpha_factor: f64,
    pub alpha_order: f64,
    pub target_reflection: f64,
    pub sigma_scale: f64,
}

impl Default for LayerPart {
    fn default() -> Self {
        let usual = CpmlConfig::default();
        Self {
            axes: Vec::new(),
            thickness: usual.thickness,
            order: usual.order,
            kappa_max: usual.kappa_max,
            alpha_factor: usual.alpha_factor,
            alpha_order: usual.alpha_order,
            target_reflection: usual.target_reflection,
            sigma_scale: usual.sigma_scale,
        }
    }
}

#[derive(Debug, Clone, Deserialize)]
#[serde(deny_unknown_fields)]
pub struct MaterialPart {
    pub eps_inf: f64,
    #[serde(default = "nothing")]
    pub sigma: Conductivity,
    #[serde(default = "one")]
    pub mu_r: f64,
    #[serde(default)]
    pub poles: Vec<PolePart>,
}

fn nothing() -> Conductivity {
    Conductivity(0.0)
}

fn one() -> f64 {
    1.0
}

choice! {
    /// A pole of a material.
    PolePart { "lorentz" => Lorentz(LorentzPart), "drude" => Drude(DrudePart), "debye" => Debye(DebyePart) }
}

#[derive(Debug, Clone, Copy, Deserialize)]
#[serde(deny_unknown_fields)]
pub struct LorentzPart {
    pub delta_eps: f64,
    pub omega0: Rate,
    pub gamma: Rate,
}

#[derive(Debug, Clone, Copy, Deserialize)]
#[serde(deny_unknown_fields)]
pub struct DrudePart {
    pub omega_p: Rate,
    pub gamma: Rate,
}

#[derive(Debug, Clone, Copy, Deserialize)]
#[serde(deny_unknown_fields)]
pub struct DebyePart {
    pub delta_eps: f64,
    pub tau: Time,
}

/// Half-open ranges of cells; one that is left out is the whole axis.
#[derive(Debug, Clone, Copy, Deserialize)]
#[serde(deny_unknown_fields)]
pub struct Cells {
    pub x: Option<[usize; 2]>,
    pub y: Option<[usize; 2]>,
    pub z: Option<[usize; 2]>,
}

#[derive(Debug, Deserialize)]
#[serde(deny_unknown_fields)]
pub struct BoxPart {
    pub material: String,
    pub cells: Cells,
}

choice! {
    /// Where the wave enters.
    Wave { "slab" => Slab(SlabPart), "injector" => Injector(InjectorPart), "box" => Box(BoxRegionPart) }
}

#[derive(Debug, Clone, Copy, Deserialize)]
#[serde(deny_unknown_fields)]
pub struct SlabPart {
    pub k0: usize,
    pub k1: usize,
}

#[derive(Debug, Clone, Copy, Deserialize)]
#[serde(deny_unknown_fields)]
pub struct InjectorPart {
    pub k0: usize,
}

/// i0, i1, j0, j1, k0, k1, all of them in the region.
#[derive(Debug, Clone, Copy, Deserialize)]
#[serde(deny_unknown_fields)]
pub struct BoxRegionPart {
    pub corners: [usize; 6],
}

choice! {
    /// What the wave's source gives.
    SourcePart {
        "gaussian" => Gaussian(GaussianPart),
        "modulated" => Modulated(ModulatedPart),
        "continuous" => Continuous(ContinuousPart),
        "table" => Table(TablePart),
    }
}

#[derive(Debug, Clone, Copy, Deserialize)]
#[serde(deny_unknown_fields)]
pub struct GaussianPart {
    pub width: Time,
    pub delay: Time,
}

#[derive(Debug, Clone, Copy, Deserialize)]
#[serde(deny_unknown_fields)]
pub struct ModulatedPart {
    pub width: Time,
    pub delay: Time,
    pub frequency: Frequency,
}

#[derive(Debug, Clone, Copy, Deserialize)]
#[serde(deny_unknown_fields)]
pub struct ContinuousPart {
    pub frequency: Frequency,
    pub ramp: Time,
}

#[derive(Debug, Clone, Deserialize)]
#[serde(deny_unknown_fields)]
pub struct TablePart {
    pub samples: Vec<f64>,
}

/// Where ex is summed up: behind the sheet, and in front of where the wave enters.
#[derive(Debug, Deserialize)]
#[serde(deny_unknown_fields)]
pub struct Planes {
    pub transmitted: usize,
    pub reflected: Option<usize>,
}

#[derive(Debug, Deserialize)]
#[serde(deny_unknown_fields)]
pub struct Gauge {
    pub frequencies: Vec<Frequency>,
}

#[derive(Debug, Deserialize)]
#[serde(deny_unknown_fields)]
pub struct Run {
    pub steps: usize,
}

#[derive(Debug, Deserialize)]
#[serde(deny_unknown_fields)]
pub struct Sheet {
    pub cells: Cells,
    /// One of the two: each moisture with its own numbers, or a mixture.
    #[serde(default)]
    pub moisture: Vec<MoisturePart>,
    pub paper: Option<PaperPart>,
}

#[derive(Debug, Deserialize)]
#[serde(deny_unknown_fields)]
pub struct MoisturePart {
    pub percent: f64,
    pub material: MaterialPart,
}

#[derive(Debug, Deserialize)]
#[serde(deny_unknown_fields)]
pub struct PaperPart {
    pub grammage: Grammage,
    pub caliper: Length,
    pub fibre: PartOfPaper,
    pub water: PartOfPaper,
    pub moistures: Vec<f64>,
}

#[derive(Debug, Deserialize)]
#[serde(deny_unknown_fields)]
pub struct PartOfPaper {
    pub density: Density,
    pub material: MaterialPart,
    /// At which temperature the numbers hold, in °C, and where they come from.
    pub temperature: Option<f64>,
    pub source: String,
}

impl PartOfPaper {
    /// Where its numbers come from, for the reader of a curve.
    pub fn origin(&self, name: &str) -> String {
        let at = self.temperature.map_or(String::new(), |celsius| format!(" at {celsius} °C"));
        format!("{name}{at}: {}", self.source)
    }
}

impl GridPart {
    /// None where dt and the Courant number are both given, or neither.
    pub fn grid(&self, pole_slots: usize) -> Option<Grid> {
        let (pitch, constants) = (self.pitch.0, self.constants);
        let dt = match (self.dt, self.courant) {
            (Some(dt), None) => dt.0,
            (None, Some(courant)) => courant * constants.largest_dt(pitch),
            _ => return None,
        };
        Some(Grid { cells: self.cells, pitch, dt, pole_slots, constants })
    }
}

impl LayerPart {
    pub fn config(&self) -> CpmlConfig {
        CpmlConfig {
            thickness: self.thickness,
            order: self.order,
            kappa_max: self.kappa_max,
            alpha_factor: self.alpha_factor,
            alpha_order: self.alpha_order,
            target_reflection: self.target_reflection,
            sigma_scale: self.sigma_scale,
            axes: axes(&self.axes),
        }
    }
}

impl PolePart {
    fn pole(&self) -> Pole {
        match *self {
            Self::Lorentz(LorentzPart { delta_eps, omega0, gamma }) => {
                Pole::Lorentz { delta_eps, omega0: omega0.0, gamma: gamma.0 }
            }
            Self::Drude(DrudePart { omega_p, gamma }) => Pole::Drude { omega_p: omega_p.0, gamma: gamma.0 },
            Self::Debye(DebyePart { delta_eps, tau }) => Pole::Debye { delta_eps, tau: tau.0 },
        }
    }
}

impl MaterialPart {
    pub fn material(&self) -> Material {
        Material {
            eps_inf: self.eps_inf,
            sigma: self.sigma.0,
            mu_r: self.mu_r,
            poles: self.poles.iter().map(|pole| pole.pole()).collect(),
        }
    }
}

impl Cells {
    pub fn cell_box(self) -> CellBox {
        let range = |given: Option<[usize; 2]>| given.map_or((0, usize::MAX), |[from, to]| (from, to));
        CellBox { x: range(self.x), y: range(self.y), z: range(self.z) }
    }
}

impl SourcePart {
    /// Everything of a curve is against the empty head, so that the amplitude is 1.
    pub fn source(&self) -> Source {
        let amplitude = 1.0;
        match self {
            Self::Gaussian(part) => Source::Gaussian { amplitude, width: part.width.0, delay: part.delay.0 },
            Self::Modulated(part) => {
                Source::Modulated { amplitude, width: part.width.0, delay: part.delay.0, frequency: part.frequency.0 }
            }
            Self::Continuous(part) => Source::Continuous { amplitude, frequency: part.frequency.0, ramp: part.ramp.0 },
            Self::Table(part) => Source::Table { samples: part.samples.clone() },
        }
    }
}

impl PaperPart {
    pub fn paper(&self) -> Paper {
        Paper {
            grammage: self.grammage.0,
            caliper: self.caliper.0,
            fibre: self.fibre.material.material(),
            fibre_density: self.fibre.density.0,
            water: self.water.material.material(),
            water_density: self.water.density.0,
        }
    }
}
