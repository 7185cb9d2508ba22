//! The absorbing layer's tables, as the original's `AxisCoeffs::build` makes them (Roden and Gedney 2000; phyz-em, cpml.rs, NOTICE), by functions that give the
//! same bits on every machine: the engine takes them as numbers.

use crate::constants::Constants;
use crate::maths;
use crate::refusal::Refusal;
use crate::stores::sizes_fit;
use crate::study::Grid;

/// The numbers of a layer.
#[derive(Debug, Clone, Copy, PartialEq)]
pub struct CpmlConfig {
    /// Its cells on each side of an axis.
    pub thickness: usize,
    /// The order of the polynomial by which σ and κ grow towards the wall; 3 or 4 is usual.
    pub order: f64,
    /// κ at the wall, 1 or more.
    pub kappa_max: f64,
    /// α at the layer's inner side, in units of ε0 c over the layer's depth.
    pub alpha_factor: f64,
    /// The order by which α falls towards the wall.
    pub alpha_order: f64,
    /// The reflection that σ is chosen for, at normal incidence.
    pub target_reflection: f64,
    /// σ in units of what that asks for.
    pub sigma_scale: f64,
    /// Along x, y and z.
    pub axes: [bool; 3],
}

impl Default for CpmlConfig {
    fn default() -> Self {
        Self {
            thickness: 10,
            order: 3.0,
            kappa_max: 5.0,
            alpha_factor: 0.2,
            alpha_order: 1.0,
            target_reflection: 1e-8,
            sigma_scale: 1.0,
            axes: [true; 3],
        }
    }
}

/// What the tables are computed by. The original takes the system's; whoever wants its tables to the last bit hands those in.
#[derive(Debug, Clone, Copy)]
pub struct Functions {
    pub exp: fn(f64) -> f64,
    pub ln: fn(f64) -> f64,
    pub powf: fn(f64, f64) -> f64,
}

impl Functions {
    /// The same on every machine.
    pub const OWN: Self = Self { exp: maths::exp, ln: maths::ln, powf: maths::powf };
}

/// What one axis has: cells, their size, the time step, the constants; and the functions for its tables.
struct Axis<'a> {
    n: usize,
    d: f64,
    dt: f64,
    constants: Constants,
    functions: &'a Functions,
}

/// σ and α of a layer at their largest.
struct Strength {
    sigma: f64,
    alpha: f64,
}

impl CpmlConfig {
    fn strength(&self, axis: &Axis) -> Strength {
        let (eps0, mu0, c0) = (axis.constants.eps0(), axis.constants.mu0(), axis.constants.c0());
        let depth = self.thickness as f64 * axis.d;
        let eta0 = (mu0 / eps0).sqrt();
        Strength {
            sigma: -(self.order + 1.0) * (axis.functions.ln)(self.target_reflection) / (2.0 * eta0 * depth) * self.sigma_scale,
            alpha: self.alpha_factor * eps0 * c0 / depth,
        }
    }

    /// 1/κ, b and c at the depth u of the layer, 0 at its inner side and 1 at the wall.
    fn at(&self, u: f64, most: &Strength, axis: &Axis) -> [f64; 3] {
        if u <= 0.0 {
            return [1.0, 1.0, 0.0];
        }
        let Functions { exp, powf, .. } = *axis.functions;
        let sigma = most.sigma * powf(u, self.order);
        let kappa = 1.0 + (self.kappa_max - 1.0) * powf(u, self.order);
        let alpha = most.alpha * powf(1.0 - u, self.alpha_order);
        let b = exp(-((sigma / kappa) + alpha) * axis.dt / axis.constants.eps0());
        let denominator = kappa * (sigma + kappa * alpha);
        let c = if denominator.abs() > 0.0 { sigma * (b - 1.0) / denominator } else { 0.0 };
        [1.0 / kappa, b, c]
    }

    /// The six tables of an axis, one after another: 1/κ, b, c where E stands, and half a cell on, where H does.
    fn axis(&self, axis: &Axis) -> Vec<f64> {
        let n = axis.n;
        if self.thickness == 0 || n < self.thickness.saturating_mul(2).saturating_add(2) {
            return inactive(n);
        }
        let thick = self.thickness as f64;
        let most = self.strength(axis);
        let depth = |distance: f64| ((thick - distance) / thick).clamp(0.0, 1.0);
        let mut out = Vec::with_capacity(6 * n);
        for half in [0.0, 0.5] {
            let places = (0..n).map(|i| i as f64 + half);
            let depths = places.map(|at| depth(at).max(depth((n - 1) as f64 - at)));
            let numbers: Vec<[f64; 3]> = depths.map(|u| self.at(u, &most, axis)).collect();
            for which in 0..3 {
                out.extend(numbers.iter().map(|three| three[which]));
            }
        }
        out
    }
}

/// The tables of an axis without a layer.
fn inactive(n: usize) -> Vec<f64> {
    let table = |number| std::iter::repeat_n(number, n);
    let three = || table(1.0).chain(table(0.0)).chain(table(0.0));
    three().chain(three()).collect()
}

/// The tables of a study in store order: x, y, z. An axis that was not asked for has those of opening. Refused for sizes that no study has.
pub fn tables(grid: &Grid, config: &CpmlConfig) -> Result<Vec<f64>, Refusal> {
    tables_with(grid, config, &Functions::OWN)
}

/// The same by other functions.
pub fn tables_with(grid: &Grid, config: &CpmlConfig, functions: &Functions) -> Result<Vec<f64>, Refusal> {
    if !sizes_fit(grid.cells) {
        return Err(Refusal::BadSize);
    }
    let axis = |a: usize| {
        let (n, d) = (grid.cells[a], grid.pitch[a]);
        let axis = Axis { n, d, dt: grid.dt, constants: grid.constants, functions };
        if config.axes[a] { config.axis(&axis) } else { inactive(n) }
    };
    Ok([axis(0), axis(1), axis(2)].concat())
}
