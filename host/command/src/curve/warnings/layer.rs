//! The absorbing layer: there at all, strong enough, with nothing in it.

use crate::curve::plan::Plan;
use crate::output::table::in_hertz;
use cichowiej::{Layer, maths};
use std::f64::consts::PI;

/// How many times the lowest gauge frequency the layer's α may lie at.
const SHIFTED: f64 = 3.0;

/// Where -60 dB is passed between the 5 cells (-47 dB) and the 10 (-89 dB) of docs/VALIDATION.md, with some room.
const LEAST_CELLS: usize = 8;

/// The reflection that its conductivity may be chosen for: -60 dB, and no less than is of use.
const MOST_REFLECTION: f64 = 1e-3;
const LEAST_REFLECTION: f64 = 1e-20;

/// Along z, where the wave runs.
pub fn absent(plan: &Plan) -> Option<String> {
    plan.layer_on_z().is_none().then(|| {
        "no absorbing layer is asked for along z, where the wave runs: its ends send the wave back; take [edge.layer] with axes = [\"z\"]".into()
    })
}

pub fn weak(plan: &Plan) -> Option<String> {
    let layer = plan.layer_on_z()?;
    let chosen_for = maths::powf(layer.target_reflection, layer.sigma_scale);
    // a conductivity that is too steep for the cells, or a stretch too strong, reflects by itself
    let graded = (2.0..=6.0).contains(&layer.order) && (1.0..=20.0).contains(&layer.kappa_max);
    let strong = layer.thickness >= LEAST_CELLS && graded && (LEAST_REFLECTION..=MOST_REFLECTION).contains(&chosen_for);
    (!strong).then(|| {
        format!("the absorbing layer is weak: take {LEAST_CELLS} cells or more, an order of 3 or 4, and leave kappa_max, target_reflection and sigma_scale as they are")
    })
}

/// The layer's α, alpha_factor ε0 c / depth, keeps it from absorbing much where 2π f ε0 lies well below it.
pub fn shifted(plan: &Plan) -> Option<String> {
    let layer = plan.layer_on_z().filter(|layer| layer.thickness > 0)?;
    let depth = layer.thickness as f64 * plan.grid.pitch[2];
    let shift = layer.alpha_factor * plan.grid.constants.c0() / (2.0 * PI * depth);
    let lowest = plan.frequencies.iter().copied().fold(f64::INFINITY, f64::min);
    (shift > SHIFTED * lowest).then(|| {
        let (lowest, shift) = (in_hertz(lowest), in_hertz(shift));
        format!(
            "the absorbing layer is thin for the lowest gauge frequency, {lowest}, and absorbs little below {shift}: take a smaller alpha_factor (0.02) \
             or more cells for it"
        )
    })
}

/// What stands in the absorbing layer is weakened there.
pub fn inside(plan: &Plan, layer: Option<Layer>) -> Option<String> {
    let works = layer.is_some_and(|layer| layer.active[2]);
    let (thick, nz) = (plan.layer_on_z()?.thickness, plan.grid.cells[2]);
    let planes = &plan.head.planes;
    let (first, last) = plan.wave_planes();
    let below = first < thick || planes.reflected.is_some_and(|back| back < thick);
    let above = [Some(planes.transmitted), last].into_iter().flatten().any(|k| k.saturating_add(thick) >= nz);
    (works && (below || above)).then(|| {
        format!("a plane that is read, or one of the wave's, stands in the absorbing layer, which has {thick} cells at each end of z: move it, or take more cells")
    })
}
