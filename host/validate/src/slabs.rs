//! Slabs on a line of cells: the studies, and what the engine and the difference equations give for them.

use crate::{scheme, theory};
use cichowiej::tables_with;
use cichowiej::{
    CellBox, Complex, Constants, CpmlConfig, Functions, Grid, Material, PlaneSpectrum, Pole, Put, Refusal, Source, Study,
};
use std::f64::consts::PI;

/// A slab to be compared. It is one wavelength thick at the band's top.
#[derive(Debug, Clone)]
pub struct Case {
    pub name: &'static str,
    pub material: Material,
}

/// Water at 20 °C, after Kaatze (1989).
pub fn water() -> Material {
    Material::plain(5.6).with_pole(Pole::Debye { delta_eps: 74.6, tau: 9.36e-12 })
}

pub fn cases() -> Vec<Case> {
    let lorentz = Pole::Lorentz { delta_eps: 1.5, omega0: 2.0 * PI * 20e9, gamma: 4e9 };
    let case = |name, material| Case { name, material };
    vec![
        case("plain", Material::plain(4.0)),
        case("lossy", Material::plain(4.0).with_sigma(0.5)),
        case("Debye (water)", water()),
        case("Lorentz", Material::plain(2.25).with_pole(lorentz)),
    ]
}

/// The band in Hz, and how many frequencies of it are looked at.
pub const TOP: f64 = 10e9;
pub const BOTTOM: f64 = 2.5e9;
const FREQUENCIES: usize = 61;

/// The Courant number of the studies.
pub const COURANT: f64 = 0.5;

pub fn band() -> Vec<f64> {
    let step = (TOP - BOTTOM) / (FREQUENCIES - 1) as f64;
    (0..FREQUENCIES).map(|i| BOTTOM + step * i as f64).collect()
}

/// A pulse over the whole band, without a steady part: five widths before its middle it is as weak as 1e-11.
pub fn pulse() -> Source {
    let width = 0.5 / TOP;
    Source::Modulated { amplitude: 1.0, width, delay: 5.0 * width, frequency: 0.6 * TOP }
}

/// A case on cells of a size: so many a wavelength in the slab at the band's top.
#[derive(Debug, Clone)]
pub struct Line {
    pub case: Case,
    pub fine: usize,
    pub courant: f64,
    pub constants: Constants,
}

/// Where things stand on the line, by planes.
pub struct Places {
    pub cells: usize,
    pub layer: usize,
    pub before: usize,
    pub wave: usize,
    pub slab: usize,
    pub behind: usize,
}

impl Line {
    pub fn pitch(&self) -> f64 {
        let index = theory::index(&self.case.material, TOP, self.constants);
        self.constants.c0() / (TOP * index.re) / self.fine as f64
    }

    pub fn thickness(&self) -> f64 {
        self.pitch() * self.fine as f64
    }

    pub fn places(&self) -> Places {
        let layer = 40;
        let before = layer + 5;
        let (wave, slab) = (before + 2, before + 4);
        let behind = slab + self.fine + 2;
        Places { cells: behind + 5 + layer, layer, before, wave, slab, behind }
    }

    pub fn grid(&self) -> Grid {
        let (pitch, constants) = ([self.pitch(); 3], self.constants);
        let dt = self.courant * constants.largest_dt(pitch);
        Grid { cells: [1, 1, self.places().cells], pitch, dt, pole_slots: self.case.material.poles.len(), constants }
    }

    /// Enough for the pulse to pass and for what is left in slab and layer to die out.
    pub fn samples(&self) -> Vec<f64> {
        let dt = self.grid().dt;
        pulse().samples(0.0, dt, 0).take((120.0 / TOP / dt) as usize).collect()
    }

    /// Opened, with its slab or without.
    pub fn study(&self, filled: bool) -> Result<Study, Refusal> {
        self.study_with(filled, &Functions::OWN)
    }

    /// The same with a layer whose tables are computed by other functions.
    pub fn study_with(&self, filled: bool, functions: &Functions) -> Result<Study, Refusal> {
        let (grid, places) = (self.grid(), self.places());
        let config = layer(places.layer);
        let mut study = Study::open(&grid)?;
        study.set_periodic([true, true, false])?;
        study.set_boundary_tables(config.axes, config.thickness, &tables_with(&grid, &config, functions)?)?;
        if filled {
            let id = study.add_material(&self.case.material)?;
            study.put_box(CellBox::planes(places.slab, places.slab + self.fine), Put::Library(id))?;
        }
        study.build_dispersion()?;
        study.injector_z(places.wave)?;
        Ok(study)
    }

    /// The spectra of ex in front of the wave's plane, at the slab's first plane, and behind the slab.
    fn spectra(&self, filled: bool) -> Result<[Vec<Complex>; 3], Refusal> {
        let (places, dt) = (self.places(), self.grid().dt);
        let mut study = self.study(filled)?;
        let mut spectra = [places.before, places.slab, places.behind].map(|k| PlaneSpectrum::new(k, &band(), dt));
        for sample in self.samples() {
            study.step(sample)?;
            spectra.iter_mut().for_each(|spectrum| spectrum.take(&study));
        }
        Ok(spectra.map(|spectrum| spectrum.sums().to_vec()))
    }

    /// Transmission and reflection at each frequency, as the theory has them.
    pub fn measured(&self) -> Result<Vec<theory::Slab>, Refusal> {
        let ([back, _, through], [leak, front, air]) = (self.spectra(true)?, self.spectra(false)?);
        let at = |(i, f): (usize, f64)| theory::Slab {
            transmission: through[i] / air[i],
            // what the empty line has there is the echo of the wave's own line, no reflection of the slab's
            reflection: (back[i] - leak[i]) / front[i] * self.turn(f),
        };
        Ok(band().into_iter().enumerate().map(at).collect())
    }

    /// From the slab's front to the plane before it, less from the front to the slab's first plane. The front lies half a cell before that plane.
    fn way(&self) -> f64 {
        let places = self.places();
        (places.slab - 1 - places.before) as f64 * self.pitch()
    }

    /// What that way does to a wave.
    fn turn(&self, frequency: f64) -> Complex {
        Complex::turn(2.0 * PI * frequency / self.constants.c0() * self.way())
    }

    /// What the difference equations themselves give for the same.
    pub fn by_hand(&self, frequency: f64) -> theory::Slab {
        let places = self.places();
        let cells = scheme::Cells { count: self.fine, d: self.pitch(), dt: self.grid().dt, constants: self.constants };
        let answer = scheme::slab(&self.case.material, &cells, frequency);
        let air = (places.before + 2..places.slab).fold(theory::ONE, |product, _| product * answer.q);
        theory::Slab { transmission: answer.transmission, reflection: answer.reflection * air * self.turn(frequency) }
    }
}

/// The layer of these studies: of the default's numbers only α is another one, a tenth (docs/VALIDATION.md says why).
pub fn layer(thickness: usize) -> CpmlConfig {
    CpmlConfig { thickness, alpha_factor: 0.02, axes: [false, false, true], ..CpmlConfig::default() }
}
