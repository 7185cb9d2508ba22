//! The constants of vacuum that a study computes with: two sets of them.

use crate::bindings::{cichowiej_c0, cichowiej_c0_2019, cichowiej_eps0, cichowiej_eps0_2019};
use crate::bindings::{cichowiej_max_stable_dt, cichowiej_mu0, cichowiej_mu0_2019};
use std::fmt;

/// A set of ε0, μ0 and c, chosen as a study is opened and kept in its saves.
#[derive(Debug, Clone, Copy, PartialEq, Eq, Hash, Default)]
pub enum Constants {
    /// The older SI values, which the original has: ε0 8.854187817e-12 F/m, μ0 4π 1e-7 H/m, and c = 1/√(ε0 μ0).
    #[default]
    Old,
    /// CODATA 2018, after the SI of 2019: ε0 8.8541878128e-12 F/m, μ0 1.25663706212e-6 H/m, and c 299,792,458 m/s as it is stated.
    Si2019,
}

impl Constants {
    pub const ALL: [Self; 2] = [Self::Old, Self::Si2019];

    /// As the engine takes it, and as it stands in a save.
    pub fn number(self) -> usize {
        match self {
            Self::Old => 0,
            Self::Si2019 => 1,
        }
    }

    pub fn numbered(number: usize) -> Option<Self> {
        Self::ALL.into_iter().find(|constants| constants.number() == number)
    }

    /// For people.
    pub fn name(self) -> &'static str {
        match self {
            Self::Old => "old",
            Self::Si2019 => "2019",
        }
    }

    pub fn named(name: &str) -> Option<Self> {
        Self::ALL.into_iter().find(|constants| constants.name() == name)
    }

    /// In F/m.
    pub fn eps0(self) -> f64 {
        match self {
            Self::Old => cichowiej_eps0(),
            Self::Si2019 => cichowiej_eps0_2019(),
        }
    }

    /// In H/m.
    pub fn mu0(self) -> f64 {
        match self {
            Self::Old => cichowiej_mu0(),
            Self::Si2019 => cichowiej_mu0_2019(),
        }
    }

    /// In m/s. That of 2019 is not 1/√(ε0 μ0) in its last bits.
    pub fn c0(self) -> f64 {
        match self {
            Self::Old => cichowiej_c0(),
            Self::Si2019 => cichowiej_c0_2019(),
        }
    }

    /// The time step at the Courant number 1 for cells of these sizes: the largest that is stable in a grid with many cells along each axis
    /// (`Grid::courant_limit` says what it is in others).
    pub fn largest_dt(self, pitch: [f64; 3]) -> f64 {
        let [dx, dy, dz] = pitch;
        cichowiej_max_stable_dt(self.c0(), dx, dy, dz, 0.0)
    }
}

impl fmt::Display for Constants {
    fn fmt(&self, f: &mut fmt::Formatter) -> fmt::Result {
        f.write_str(self.name())
    }
}
