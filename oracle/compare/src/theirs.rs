//! The original's side: the same calls on the original's grid, and the block and stores that the
//! engine has to hold after each.
//!
//! Each set of constants has an original of its own, and the files below theirs/ are compiled for
//! either of them.

#![allow(clippy::duplicate_mod)]

/// The original as it is.
#[path = "theirs"]
mod old {
    use phyz_em as original;
    #[path = "side.rs"]
    pub mod side;
}

/// The original with the constants of 2019 in its text.
#[path = "theirs"]
mod new {
    use phyz_em_2019 as original;
    #[path = "side.rs"]
    pub mod side;
}

use phyz_em::cpml::CpmlConfig;

use crate::call::Call;
use crate::engine::block::{CONSTANTS, Pole, Record};
use crate::engine::{Answer, Study};

/// The original that has the constants of the study.
pub enum Theirs {
    Old(old::side::Side),
    New(new::side::Side),
}

macro_rules! on_side {
    ($theirs:expr, $side:ident => $result:expr) => {
        match $theirs {
            Theirs::Old($side) => $result,
            Theirs::New($side) => $result,
        }
    };
}

impl Theirs {
    /// Opens a study. What is handed over is what the engine accepts.
    pub fn open(
        sizes: [usize; 3],
        pole_slots: usize,
        constants: usize,
        spacings: [f64; 4],
    ) -> Self {
        match constants {
            0 => Self::Old(old::side::Side::open(sizes, pole_slots, 0, spacings)),
            _ => Self::New(new::side::Side::open(
                sizes, pole_slots, constants, spacings,
            )),
        }
    }

    /// The block and stores that the engine has to hold.
    pub fn expected(&self) -> &Study {
        on_side!(self, side => &side.expected)
    }

    /// The call on the original, where the papers accept it, and the answer that is expected. Where
    /// another set of constants stands after it, the other original takes the study up.
    pub fn apply(&mut self, call: &Call) -> Answer {
        let answer = on_side!(self, side => side.apply(call));
        match (&self, self.expected().block[CONSTANTS]) {
            (Self::New(side), 0) => *self = Self::Old(old::side::Side::of(&side.expected)),
            (Self::Old(side), 1) => *self = Self::New(new::side::Side::of(&side.expected)),
            _ => {}
        }
        answer
    }

    /// The steps alone, without a look at what they leave.
    pub fn run(&mut self, samples: &[f64]) {
        on_side!(self, side => side.run(samples))
    }

    /// What `run` has left: every array, and the clock.
    pub fn read(&mut self) {
        on_side!(self, side => side.read())
    }
}

/// The tables that the original with the record's constants computes for a layer, in store order.
pub fn built_tables(record: &Record, config: CpmlConfig) -> Vec<f64> {
    match record.constants {
        0 => old::side::built_tables(record, &config),
        _ => new::side::built_tables(record, &config),
    }
}

/// The coefficients of a pole, by the original that has these constants.
pub fn ade_coeffs(constants: usize, pole: &Pole, dt: f64) -> [f64; 3] {
    match constants {
        0 => old::side::ade_coeffs(pole, dt),
        _ => new::side::ade_coeffs(pole, dt),
    }
}
