//! The absorbing layer's reflection: the echo of a pulse at both ends of a line, and of long waves on cells as small as a sheet asks for.

use crate::CONSTANTS;
use crate::report::{Section, db, largest};
use crate::slabs::{COURANT, TOP, band, layer, pulse};
use cichowiej::{CpmlConfig, Field, Grid, LINE_PAD, MAX_SIDE, PlaneSpectrum, Refusal, Source, Study, tables};
use rayon::prelude::*;

const THICKNESSES: [usize; 6] = [5, 10, 15, 20, 30, 40];

/// Cells a wavelength in air at the band's top.
const FINE: usize = 20;

/// The pulse's length in cells: ten widths of half a period.
const LENGTH: usize = 5 * FINE;

/// The source of the wave's own line lies so many cells below plane 0.
const SOURCE: usize = 18;

fn grid(cells: usize) -> Grid {
    line(cells, CONSTANTS.c0() / TOP / FINE as f64)
}

fn line(cells: usize, pitch: f64) -> Grid {
    let (pitch, constants) = ([pitch; 3], CONSTANTS);
    Grid { cells: [1, 1, cells], pitch, dt: COURANT * constants.largest_dt(pitch), pole_slots: 0, constants }
}

/// How many steps a wave takes over a way in cells.
fn steps(way: usize) -> usize {
    (way as f64 * grid(1).pitch[2] / (CONSTANTS.c0() * grid(1).dt)) as usize
}

/// ex at a plane after every step.
fn listen(mut study: Study, plane: usize, count: usize) -> Result<Vec<f64>, Refusal> {
    let step = |sample: f64| {
        study.step(sample)?;
        Ok(study.plane(Field::Electric, 0, plane)[0])
    };
    pulse().samples(0.0, grid(1).dt, 0).take(count).map(step).collect()
}

/// An echo against its pulse: the largest of each in time, and the worst of the band.
#[derive(Debug, Clone, Copy)]
struct Echo {
    peak: f64,
    band: f64,
}

impl Echo {
    fn new(echo: &[f64], pulse: &[f64]) -> Self {
        let peak = |samples: &[f64]| samples.iter().copied().fold(0.0, largest);
        let spectrum = |samples: &[f64]| {
            let mut spectrum = PlaneSpectrum::new(0, &band(), grid(1).dt);
            samples.iter().for_each(|sample| spectrum.add(*sample));
            spectrum.sums().to_vec()
        };
        let ratios = spectrum(echo).into_iter().zip(spectrum(pulse)).map(|(echo, pulse)| (echo / pulse).norm());
        Self { peak: db(peak(echo) / peak(pulse)), band: db(ratios.fold(0.0, largest)) }
    }
}

/// The end at which k is high: what a line of 512 cells does not have, whose own end is too far for an echo to come back in time.
fn high_end(config: &CpmlConfig) -> Result<Echo, Refusal> {
    let (wave, plane) = (60, 70);
    let short = plane + 11 + config.thickness;
    // until what the ends of the wave's own line send back, upper and then lower, would be there
    let run = |cells: usize| {
        let mut study = Study::open(&grid(cells))?;
        study.set_periodic([true, true, false])?;
        study.set_boundary_cpml(config)?;
        study.injector_z(wave)?;
        listen(study, plane, steps(2 * short + SOURCE + 4 * LINE_PAD + plane - 10))
    };
    let (short, long) = (run(short)?, run(MAX_SIDE)?);
    let echo: Vec<f64> = short.iter().zip(&long).map(|(short, long)| short - long).collect();
    Ok(Echo::new(&echo, &long))
}

/// The tables of a layer that stands at the low end of z alone: the high end is a conducting wall.
fn low_tables(grid: &Grid, config: &CpmlConfig) -> Result<Vec<f64>, Refusal> {
    let mut given = tables(grid, config)?;
    let n = grid.cells[2];
    // behind x and y, of six numbers each: 1/κ, b, c where E stands, and where H does
    let z = given.len() - 6 * n;
    for (table, nothing) in given[z..].chunks_mut(n).zip([1.0, 1.0, 0.0, 1.0, 1.0, 0.0]) {
        table[n / 2..].fill(nothing);
    }
    Ok(given)
}

/// The end at which k is low: the wall above turns the pulse round; it goes by the plane whole, and comes back from the layer as the echo.
fn low_end(config: &CpmlConfig) -> Result<Echo, Refusal> {
    let plane = config.thickness + 3 * LENGTH / 2;
    let wall = plane + 2 * LENGTH;
    let grid = grid(wall + 1);
    let mut study = Study::open(&grid)?;
    study.set_periodic([true, true, false])?;
    study.set_boundary_tables(config.axes, config.thickness, &low_tables(&grid, config)?)?;
    study.injector_z(plane + 5)?;
    let first = SOURCE + wall + wall - plane;
    // half a length longer than the pulse: what the end of the wave's own line sends after it goes by as well
    let (from, to) = (steps(first + 2 * LENGTH), steps(first + 3 * LENGTH + 4 * LENGTH - 10));
    let heard = listen(study, plane, to)?;
    Ok(Echo::new(&heard[from..], &heard[..from]))
}

/// What stands in front of the wave's plane on an empty line, against the wave: what the layer sends back, and the upper end of the wave's own line.
fn in_front(config: &CpmlConfig, pitch: f64, frequency: f64) -> Result<f64, Refusal> {
    let (before, wave) = (config.thickness + 5, config.thickness + 10);
    let grid = line(2 * config.thickness + 30, pitch);
    let mut study = Study::open(&grid)?;
    study.set_periodic([true, true, false])?;
    study.set_boundary_cpml(config)?;
    study.injector_z(wave)?;
    let mut spectra = [before, wave + 5].map(|k| PlaneSpectrum::new(k, &[frequency], grid.dt));
    let width = 1.0 / frequency;
    let source = Source::Modulated { amplitude: 1.0, width, delay: 5.0 * width, frequency };
    // the pulse, as long again, and four ways along the wave's own line
    let time = 20.0 * width + 4.0 * (grid.cells[2] + 2 * LINE_PAD) as f64 * grid.pitch[2] / CONSTANTS.c0();
    for sample in source.samples(0.0, grid.dt, 0).take((time / grid.dt) as usize) {
        study.step(sample)?;
        spectra.iter_mut().for_each(|spectrum| spectrum.take(&study));
    }
    let [back, there] = spectra.map(|spectrum| spectrum.sums()[0]);
    Ok(db((back / there).norm()))
}

/// The default's numbers, and with an α of a tenth.
fn configs(thickness: usize) -> [CpmlConfig; 2] {
    [CpmlConfig { thickness, axes: [false, false, true], ..CpmlConfig::default() }, layer(thickness)]
}

/// Each thickness at both ends.
pub fn pulses() -> Result<Section, Refusal> {
    let both = |config: CpmlConfig| Ok((config, high_end(&config)?, low_end(&config)?));
    let all: Vec<CpmlConfig> = THICKNESSES.into_iter().flat_map(configs).collect();
    let echoes = all.into_par_iter().map(both).collect::<Result<Vec<(CpmlConfig, Echo, Echo)>, Refusal>>()?;
    let row = |(config, high, low): &(CpmlConfig, Echo, Echo)| {
        let numbers = [high.peak, low.peak, high.band, low.band].map(|echo| format!("{echo:.1}"));
        [config.thickness.to_string(), config.alpha_factor.to_string()].into_iter().chain(numbers).collect()
    };
    let mut out = Section::new("layer");
    let heads = ["cells", "alpha_factor", "peak, high end, dB", "peak, low end, dB", "band, high end, dB", "band, low end, dB"];
    out.table(&heads, &echoes.iter().map(row).collect::<Vec<_>>());
    for (config, high, low) in &echoes {
        let name = format!("{} cells with alpha_factor {}", config.thickness, config.alpha_factor);
        let quiet = [high, low].iter().all(|echo| echo.peak < -60.0 && echo.band < -60.0);
        out.must(config.thickness < 10 || quiet, format!("{name} reflect -60 dB or more"));
        out.must((high.band - low.band).abs() < 1.0, format!("{name}: the two ends differ by 1 dB or more"));
    }
    Ok(out)
}

/// Cells of 20.8 µm, five to a sheet of 104 µm, are some hundred to some thousand a wavelength.
pub fn long_waves() -> Result<Section, Refusal> {
    let three = |config: CpmlConfig| {
        let echo = |frequency| in_front(&config, 20.8e-6, frequency);
        Ok((config, [echo(2.5e9)?, echo(10e9)?, echo(24e9)?]))
    };
    let all: Vec<CpmlConfig> = [10, 20, 40, 80].into_iter().flat_map(configs).collect();
    let echoes = all.into_par_iter().map(three).collect::<Result<Vec<(CpmlConfig, [f64; 3])>, Refusal>>()?;
    let row = |(config, three): &(CpmlConfig, [f64; 3])| {
        let numbers = three.map(|echo| format!("{echo:.1}"));
        [config.thickness.to_string(), config.alpha_factor.to_string()].into_iter().chain(numbers).collect()
    };
    let mut out = Section::new("fine cells");
    out.table(
        &["cells of 20.8 um", "alpha_factor", "2.5 GHz, dB", "10 GHz, dB", "24 GHz, dB"],
        &echoes.iter().map(row).collect::<Vec<_>>(),
    );
    for (config, three) in echoes.iter().filter(|(config, _)| config.alpha_factor < 0.1) {
        let name = format!("{} cells of 20.8 um with alpha_factor {}", config.thickness, config.alpha_factor);
        out.must(three.iter().all(|echo| *echo < -60.0), format!("{name} reflect -60 dB or more"));
    }
    Ok(out)
}

/// With a layer whose own echo is far below that of the wave's line.
pub fn wave_line() -> Result<Section, Refusal> {
    let fine = [10, 20, 40, 80, 160];
    let echo = |fine: &usize| in_front(&layer(40), CONSTANTS.c0() / TOP / *fine as f64, TOP);
    let echoes = fine.par_iter().map(echo).collect::<Result<Vec<f64>, Refusal>>()?;
    let row = |(fine, echo): (&usize, &f64)| vec![fine.to_string(), format!("{echo:.1}")];
    let mut out = Section::new("wave line");
    out.table(
        &["cells a wavelength in air", "in front of the wave's plane, dB"],
        &fine.iter().zip(&echoes).map(row).collect::<Vec<_>>(),
    );
    let falls = echoes.windows(2).all(|two| (11.0..13.0).contains(&(two[0] - two[1])));
    out.must(falls, "the echo of the wave's own line does not fall by four, 12 dB, with cells of half the size");
    Ok(out)
}
