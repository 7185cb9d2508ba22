//! Random grids and layers, unusual ones among them.

use cichowiej::{Constants, CpmlConfig, Grid};

/// SplitMix64.
pub struct Random(pub u64);

const UNUSUAL: [f64; 16] = [
    0.0,
    -0.0,
    1.0,
    -1.0,
    0.5,
    -3.5,
    1e-300,
    1e300,
    -1e300,
    5e-324,
    f64::MIN_POSITIVE,
    f64::MAX,
    f64::EPSILON,
    f64::INFINITY,
    f64::NEG_INFINITY,
    f64::NAN,
];

impl Random {
    fn next(&mut self) -> u64 {
        self.0 = self.0.wrapping_add(0x9e37_79b9_7f4a_7c15);
        let mut z = self.0;
        z = (z ^ (z >> 30)).wrapping_mul(0xbf58_476d_1ce4_e5b9);
        z = (z ^ (z >> 27)).wrapping_mul(0x94d0_49bb_1331_11eb);
        z ^ (z >> 31)
    }

    fn below(&mut self, n: usize) -> usize {
        (self.next() % n as u64) as usize
    }

    /// From 0 to 1.
    fn part(&mut self) -> f64 {
        (self.next() >> 11) as f64 / (1u64 << 53) as f64
    }

    /// Between the two; one time in ten something unusual.
    fn number(&mut self, from: f64, to: f64) -> f64 {
        if self.below(10) == 0 { UNUSUAL[self.below(UNUSUAL.len())] } else { from + (to - from) * self.part() }
    }

    /// One axis is long; the others are short, since the original makes its memories for all cells.
    pub fn grid(&mut self, constants: Constants) -> Grid {
        let mut cells = [0; 3].map(|_| 1 + self.below(4));
        cells[self.below(3)] = 1 + self.below(100);
        let pitch = [0; 3].map(|_| self.number(1e-6, 1e-2));
        Grid { cells, pitch, dt: self.number(1e-15, 1e-11), pole_slots: 0, constants }
    }

    /// One layer in four is about as thick as the longest axis has room for.
    pub fn config(&mut self, grid: &Grid) -> CpmlConfig {
        let longest = grid.cells.into_iter().max().unwrap_or(1);
        let fitting = (longest.saturating_sub(self.below(4)) / 2).min(40);
        CpmlConfig {
            thickness: if self.below(4) == 0 { fitting } else { self.below(41) },
            order: self.number(0.0, 6.0),
            kappa_max: self.number(1.0, 20.0),
            alpha_factor: self.number(0.0, 1.0),
            alpha_order: self.number(0.0, 4.0),
            target_reflection: self.number(1e-12, 1.0),
            sigma_scale: self.number(0.0, 2.0),
            axes: [0; 3].map(|_| self.below(4) != 0),
        }
    }
}
