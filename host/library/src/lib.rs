//! A proved time-domain field solver (FDTD on a Yee grid, absorbing layer, dispersive materials, plane wave), with its studies as values.
//!
//! A [`Study`] owns its record and its stores, so that the engine is never handed overlapping or short ones, and can be sent to another thread. Its methods are the
//! engine's calls under the original's names; a call that is turned down answers a [`Refusal`], which says what to change, and leaves the study as it was.
//!
//! ```
//! use cichowiej::{Constants, CpmlConfig, Grid, Source, Study};
//!
//! // a line of cells along z, 1 mm each
//! let pitch = [1e-3; 3];
//! let constants = Constants::Si2019;
//! let dt = 0.5 * constants.largest_dt(pitch);
//! let mut study = Study::open(&Grid { cells: [1, 1, 100], pitch, dt, pole_slots: 0, constants })?;
//! study.set_periodic([true, true, false])?;
//! let layer = study.set_boundary_cpml(&CpmlConfig { axes: [false, false, true], ..CpmlConfig::default() })?;
//! assert!(layer.is_whole());
//! study.injector_z(20)?;
//! let source = Source::Modulated { amplitude: 1.0, width: 40e-12, delay: 160e-12, frequency: 10e9 };
//! let samples: Vec<f64> = source.samples(study.time(), dt, 0).take(200).collect();
//! study.run(&samples)?;
//! assert!(study.total_energy()? > 0.0);
//! # Ok::<(), cichowiej::Refusal>(())
//! ```

mod absorber;
#[rustfmt::skip]
#[path = "../../../include/cichowiej.rs"]
mod bindings;
mod constants;
mod file;
mod material;
pub mod maths;
mod refusal;
mod source;
mod spectrum;
mod stores;
mod study;

/// Which engine this is: its version, the proof kit that proved it, and the first 16 digits of its library's SHA-256.
pub const ENGINE: &str =
    concat!("cichowiej ", env!("CARGO_PKG_VERSION"), ", proved by ", env!("PROOF_KIT"), ", library ", env!("ENGINE_DIGEST"));

pub use absorber::{CpmlConfig, Functions, tables, tables_with};
pub use constants::Constants;
pub use file::{folder, followed, sync_folder, write_new, write_whole};
pub use material::{Material, Pole, pole_place};
pub use refusal::{REFUSALS, Refusal};
pub use source::Source;
pub use spectrum::{Complex, PlaneSpectrum};
pub use stores::{BLOCK_LENGTH, LINE_PAD, MATERIAL_LENGTH, MAX_CELLS, MAX_POLE_SLOTS, MAX_SIDE};
pub use study::{CellBox, Field, Grid, Layer, MaterialId, Put, Study};
