//! One point of the curve: its study opened as the head's file says, run, and listened to.

use crate::curve::plan::{Plan, Point};
use crate::head::trouble::Trouble;
use crate::head::{Edge, Wave, axes};
use cichowiej::{Complex, Layer, Material, MaterialId, PlaneSpectrum, Put, Refusal, Study};
use rayon::prelude::*;
use std::collections::BTreeMap;
use std::sync::atomic::{AtomicBool, Ordering};

/// What is in a head beside its materials, by name.
pub const AIR: &str = "air";

/// Fourier sums over the two planes, at each of the gauge's frequencies.
#[derive(Debug, Clone, PartialEq)]
pub struct Sums {
    pub transmitted: Vec<Complex>,
    pub reflected: Option<Vec<Complex>>,
}

impl Sums {
    /// How much comes through at a frequency; nothing where there is no such one.
    pub fn through(&self, f: usize) -> f64 {
        self.transmitted.get(f).map_or(0.0, |sum| sum.norm())
    }
}

/// What a study gave.
#[derive(Debug, Clone)]
pub struct Reading {
    pub sums: Sums,
    /// The same after four fifths of the run.
    pub early: Sums,
    /// The energy in J that went through the plane behind the sheet.
    pub energy: f64,
    /// The field's energy in J at its largest, and at the end.
    pub peak: f64,
    pub end: f64,
    pub layer: Option<Layer>,
}

impl Reading {
    /// By how much the sums at a frequency moved in the last fifth of the run: what comes through as a part of itself or, where that is less than any gauge reads, of
    /// -100 dB; what comes back as a part of the most that comes through any study, since it may be next to nothing by itself.
    pub fn moved(&self, f: usize, most: f64) -> f64 {
        let part = |end: &[Complex], early: &[Complex], of: f64| Some((*end.get(f)? - *early.get(f)?).norm() / of);
        let through = part(&self.sums.transmitted, &self.early.transmitted, self.sums.through(f).max(LEAST_READ * most));
        let back = self.sums.reflected.as_deref().zip(self.early.reflected.as_deref());
        let back = back.and_then(|(end, early)| part(end, early, most));
        through.into_iter().chain(back).fold(0.0, f64::max)
    }
}

/// Told how many steps were made; told to stop by the flag.
pub struct Watch<'a> {
    pub stop: &'a AtomicBool,
    pub moved: &'a (dyn Fn(u64) + Sync),
}

/// Steps between two samples of the planes are never more, so that Ctrl-C is heard and the samples take little room.
const LONGEST_STRIDE: usize = 4096;

/// The least that is read of what comes through, as a part of the most: -100 dB.
const LEAST_READ: f64 = 1e-5;

/// How often in a run the field's energy is looked at.
const LOOKS: usize = 200;

impl Plan<'_> {
    /// The study of a point before its first step, and on which axes its layer works.
    pub fn open(&self, point: &Point) -> Result<(Study, Option<Layer>), Trouble> {
        let refused = |key: &'static str| move |refusal| Trouble::refused(key, refusal);
        let mut study = Study::open(&self.grid).map_err(refused("grid"))?;
        study.set_periodic(axes(&self.head.periodic)).map_err(refused("periodic"))?;
        // the lossy edge overwrites every cell's conductivity, so that it comes before the materials
        let layer = self.set_edge(&mut study).map_err(refused("edge"))?;
        if point.boxes {
            self.place_boxes(&mut study)?;
        }
        if let Some(sheet) = &point.sheet {
            let id = study.add_material(&sheet.material).map_err(|refusal| self.sheet_refused(point, sheet, refusal))?;
            study.put_box(self.sheet, Put::Library(id)).map_err(refused("sheet.cells"))?;
        }
        study.build_dispersion().map_err(refused("grid"))?;
        self.set_wave(&mut study).map_err(refused("wave"))?;
        Ok((study, layer))
    }

    /// Opens every study once, so that a refusal comes before the first step, and tells where the absorbing layer works.
    pub fn check(&self) -> Result<Option<Layer>, Trouble> {
        let layers: Result<Vec<Option<Layer>>, Trouble> = self.points.iter().map(|point| Ok(self.open(point)?.1)).collect();
        Ok(layers?.first().copied().flatten())
    }

    /// Each named material once, and then the boxes in the file's order.
    fn place_boxes(&self, study: &mut Study) -> Result<(), Trouble> {
        let mut ids: BTreeMap<&str, MaterialId> = BTreeMap::new();
        for (name, part) in &self.head.materials {
            let material = part.material();
            let added = study.add_material(&material);
            ids.insert(name, added.map_err(|refusal| self.material_refused(name, &material, refusal))?);
        }
        for (index, part) in self.head.boxes.iter().enumerate() {
            let key = format!("boxes[{index}]");
            let name = part.material.as_str();
            let id =
                ids.get(name).ok_or_else(|| Trouble::at(format!("{key}.material"), format!("there is no material {name:?}")))?;
            study.put_box(part.cells.cell_box(), Put::Library(*id)).map_err(|refusal| Trouble::refused(key, refusal))?;
        }
        Ok(())
    }

    fn set_edge(&self, study: &mut Study) -> Result<Option<Layer>, Refusal> {
        match &self.head.edge {
            Edge::Layer(part) => study.set_boundary_cpml(&part.config()).map(Some),
            Edge::Lossy(part) => study.set_boundary_lossy(part.thickness, part.order, part.sigma_max.0).map(|()| None),
            // an axis that is not periodic ends in a conducting wall as it is
            Edge::Conductor(_) => Ok(None),
        }
    }

    fn set_wave(&self, study: &mut Study) -> Result<(), Refusal> {
        match &self.head.wave {
            Wave::Slab(part) => study.slab_z(part.k0, part.k1),
            Wave::Injector(part) => study.injector_z(part.k0),
            Wave::Box(part) => study.box_region(part.corners),
        }
    }

    /// How many steps lie between two samples of the planes. A sum over samples at the rate r takes what the field has at r - f for a part at f, so that r is chosen
    /// a quarter above f and the highest frequency that the source has or the grid carries, together. (The energy, which has the product of two fields, is then
    /// whole for a field that has little in the upper half of its band.)
    pub fn stride(&self) -> usize {
        let gauge = self.frequencies.iter().copied().fold(0.0, f64::max);
        let carried = self.grid.cutoff_frequency() / self.least_index();
        let source = self.source.highest_frequency().unwrap_or(f64::INFINITY);
        let rate = 1.25 * (source.min(carried).max(gauge) + gauge);
        // a NaN and what is below 1 come to 1
        ((1.0 / (rate * self.grid.dt)) as usize).clamp(1, LONGEST_STRIDE)
    }

    /// Up to which Courant number a step is stable: in the air of the head, along the incident wave's line, and in each of its materials, with the name of what has
    /// the lowest limit.
    pub fn courant_limit(&self) -> (f64, String) {
        let grid = &self.grid;
        let air = grid.courant_limit(axes(&self.head.periodic));
        let sheets = self.points.iter().filter_map(|point| Some((point.name(), point.sheet.as_ref()?.material.clone())));
        let others = self.materials().map(|(name, material)| (format!("material {name:?}"), material));
        let limit = |material: &Material| {
            let square = material.mu_r * (material.eps_inf + material.alternating(grid.dt, grid.constants));
            air * square.max(0.0).sqrt()
        };
        let limits = sheets.chain(others).map(|(name, material)| (limit(&material), name));
        let first = (air.min(grid.line_limit()), AIR.to_string());
        limits.fold(first, |least, next| if next.0 < least.0 { next } else { least })
    }

    /// The refractive index of the fastest medium at high frequencies, the vacuum's or a lower one.
    fn least_index(&self) -> f64 {
        let sheets = self.points.iter().filter_map(|point| point.sheet.as_ref()).map(|sheet| sheet.material.clone());
        let all = sheets.chain(self.materials().map(|(_, material)| material));
        all.map(|material| (material.eps_inf * material.mu_r).sqrt()).fold(1.0, f64::min)
    }

    /// Runs a point; None where it was told to stop.
    pub fn run(&self, point: &Point, watch: &Watch) -> Result<Option<Reading>, Trouble> {
        let (mut study, layer) = self.open(point)?;
        let mut listener = Listener::new(self);
        let stride = self.stride();
        let look = (self.steps / LOOKS / stride).max(1);
        let (mut done, mut samples) = (0, 0);
        while done < self.steps {
            if watch.stop.load(Ordering::Relaxed) {
                return Ok(None);
            }
            let count = stride.min(self.steps - done);
            let source: Vec<f64> = self.source.samples(study.time(), self.grid.dt, done).take(count).collect();
            study.run(&source).map_err(|refusal| Trouble::refused("run", refusal))?;
            (done, samples) = (done + count, samples + 1);
            // a shorter rest at the end is no sample: the sums are over equal times
            if count == stride {
                listener.take(&study).map_err(|refusal| Trouble::refused("planes", refusal))?;
            }
            if self.is_early(done) && !self.is_early(done + stride) {
                listener.early = listener.sums();
            }
            if samples % look == 0 || done == self.steps {
                listener.look(&study).map_err(|refusal| Trouble::refused("run", refusal))?;
            }
            (watch.moved)(count as u64);
        }
        Ok(Some(listener.reading(layer)))
    }

    /// Within the first four fifths of the run.
    fn is_early(&self, done: usize) -> bool {
        done.saturating_mul(5) <= self.steps.saturating_mul(4)
    }

    /// All points, the empty head first, as many at a time as there are threads; None where it was told to stop.
    pub fn readings(&self, watch: &Watch) -> Result<Option<Vec<Reading>>, Trouble> {
        let all: Result<Vec<Option<Reading>>, Trouble> = self.points.par_iter().map(|point| self.run(point, watch)).collect();
        Ok(all?.into_iter().collect())
    }
}

/// The sums that are taken while a study runs.
struct Listener {
    transmitted: PlaneSpectrum,
    reflected: Option<PlaneSpectrum>,
    early: Sums,
    behind: usize,
    between: f64,
    energy: f64,
    peak: f64,
    end: f64,
}

impl Listener {
    fn new(plan: &Plan) -> Self {
        let planes = &plan.head.planes;
        let between = plan.stride() as f64 * plan.grid.dt;
        let spectrum = |k| PlaneSpectrum::new(k, &plan.frequencies, between);
        let (transmitted, reflected) = (spectrum(planes.transmitted), planes.reflected.map(spectrum));
        Self {
            early: sums(&transmitted, reflected.as_ref()),
            transmitted,
            reflected,
            behind: planes.transmitted,
            between,
            energy: 0.0,
            peak: 0.0,
            end: 0.0,
        }
    }

    fn take(&mut self, study: &Study) -> Result<(), Refusal> {
        self.transmitted.take(study);
        if let Some(spectrum) = &mut self.reflected {
            spectrum.take(study);
        }
        self.energy += study.plane_reading(self.behind)? * self.between;
        Ok(())
    }

    fn look(&mut self, study: &Study) -> Result<(), Refusal> {
        self.end = study.total_energy()?;
        self.peak = self.peak.max(self.end);
        Ok(())
    }

    fn sums(&self) -> Sums {
        sums(&self.transmitted, self.reflected.as_ref())
    }

    fn reading(self, layer: Option<Layer>) -> Reading {
        Reading { sums: self.sums(), early: self.early, energy: self.energy, peak: self.peak, end: self.end, layer }
    }
}

fn sums(transmitted: &PlaneSpectrum, reflected: Option<&PlaneSpectrum>) -> Sums {
    let of = |spectrum: &PlaneSpectrum| spectrum.sums().to_vec();
    Sums { transmitted: of(transmitted), reflected: reflected.map(of) }
}
