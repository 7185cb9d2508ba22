//! The head itself: its cells, its walls, its sheet, its boxes.

use crate::curve::plan::Plan;
use crate::curve::study::AIR;
use crate::head::{AxisName, Cells, Wave};
use cichowiej::{Material, Pole};
use std::f64::consts::PI;

/// Cells a wavelength below which the grid is called coarse.
const FINE: f64 = 10.0;

/// How far below the lowest gauge frequency a pole's may lie.
const SLOW: f64 = 1e-3;

/// The part by which a Debye pole's loss may be off.
const FIRST_ORDER: f64 = 0.02;

/// The medium with the fewest cells a wavelength.
pub fn coarse(plan: &Plan) -> Option<String> {
    let top = plan.frequencies.iter().copied().fold(0.0, f64::max);
    let long = plan.grid.pitch.into_iter().zip(plan.grid.cells).filter(|(_, n)| *n > 1).map(|(d, _)| d);
    let pitch = long.fold(0.0, f64::max);
    let constants = plan.grid.constants;
    let cells = |material: &Material| {
        let index = (material.permittivity(top, constants).norm() * material.mu_r).sqrt();
        constants.c0() / (top * index) / pitch
    };
    let sheets = plan.points.iter().filter_map(|point| Some((point.name(), cells(&point.sheet.as_ref()?.material))));
    let others = plan.materials().map(|(name, material)| (format!("material {name:?}"), cells(&material)));
    let air = [(AIR.to_string(), cells(&Material::plain(1.0)))];
    let (name, fewest) = sheets.chain(others).chain(air).min_by(|a, b| a.1.total_cmp(&b.1))?;
    let fine = fewest >= FINE;
    (!fine).then(|| {
        format!(
            "{fewest:.1} cells a wavelength in {name} at the highest gauge frequency: take a smaller pitch, for {FINE} or more"
        )
    })
}

/// A slab's or an injector's wave is as wide as the grid: along x and y it needs a grid without walls.
pub fn walled(plan: &Plan) -> Option<String> {
    let wide = matches!(plan.head.wave, Wave::Slab(_) | Wave::Injector(_));
    let whole = [AxisName::X, AxisName::Y].iter().all(|axis| plan.head.periodic.contains(axis));
    (wide && !whole)
        .then(|| "the wave runs over the whole of x and y, which are not both periodic: take periodic = [\"x\", \"y\"]".into())
}

/// In percent, each once.
pub fn moistures(plan: &Plan) -> Option<String> {
    let all: Vec<f64> = plan.points.iter().filter_map(|point| Some(point.sheet.as_ref()?.moisture)).collect();
    if all.iter().any(|moisture| *moisture > 0.0 && *moisture < 0.5) && all.iter().all(|moisture| *moisture < 1.0) {
        return Some("every moisture is below 1 %: they are in percent, not parts of 1".into());
    }
    let twice = all.iter().enumerate().find(|(at, moisture)| all[..*at].contains(moisture)).map(|(_, moisture)| moisture)?;
    Some(format!("the moisture {twice} % stands twice (a decimal comma makes two numbers of one)"))
}

/// Every material of the curve.
fn materials(plan: &Plan) -> impl Iterator<Item = Material> {
    let sheets = plan.points.iter().filter_map(|point| point.sheet.as_ref()).map(|sheet| sheet.material.clone());
    sheets.chain(plan.materials().map(|(_, material)| material))
}

/// What lies far below the gauge's frequencies does nothing there: mostly a number without its unit.
pub fn slow_pole(plan: &Plan) -> Option<String> {
    let lowest = plan.frequencies.iter().copied().fold(f64::INFINITY, f64::min);
    let far = |rate: f64| rate < SLOW * 2.0 * PI * lowest;
    let slow = |pole: &Pole| match *pole {
        Pole::Debye { tau, .. } => far(1.0 / tau).then(|| format!("a Debye pole has tau = {tau:e} s")),
        Pole::Lorentz { omega0, .. } => far(omega0).then(|| format!("a Lorentz pole has omega0 = {omega0:e} rad/s")),
        Pole::Drude { omega_p, .. } => far(omega_p).then(|| format!("a Drude pole has omega_p = {omega_p:e} rad/s")),
    };
    let told = materials(plan).find_map(|material| material.poles.iter().find_map(slow))?;
    Some(format!("{told}, which does nothing at the gauge's frequencies (a number without a unit is in s or rad/s)"))
}

/// A Debye pole's recursion is of first order in the time step: with χ = Δε / (1 + iωτ - ω²τΔt/2) the loss is too large by ω²τΔt / (1 + ω²τ²), to
/// first order.
pub fn first_order(plan: &Plan) -> Option<String> {
    let omega = 2.0 * PI * plan.frequencies.iter().copied().fold(0.0, f64::max);
    let error = |pole: &Pole| match *pole {
        Pole::Debye { tau, .. } => omega * omega * tau * plan.grid.dt / (1.0 + omega * omega * tau * tau),
        _ => 0.0,
    };
    let most = materials(plan).flat_map(|material| material.poles).map(|pole| error(&pole)).fold(0.0, f64::max);
    (most > FIRST_ORDER).then(|| {
        format!("a Debye pole's loss is computed {:.1} % too large at the highest gauge frequency: take a smaller dt or courant, or smaller cells", 100.0 * most)
    })
}

/// A box's wave fills a part of the plane, and the numbers are averages over the whole of it.
pub fn boxed(plan: &Plan) -> Option<String> {
    matches!(plan.head.wave, Wave::Box(_))
        .then(|| "the wave fills a box, and the numbers are averages over whole planes, what lies beside it among them: take an injector or a slab".into())
}

/// Whether a range is the whole axis.
fn is_whole(range: Option<[usize; 2]>, n: usize) -> bool {
    range.is_none_or(|[from, to]| from == 0 && to >= n)
}

/// The sheet of a mill goes through the whole gap.
pub fn partial(plan: &Plan) -> Option<String> {
    let Cells { x, y, .. } = plan.head.sheet.cells;
    let [nx, ny, _] = plan.grid.cells;
    let whole = is_whole(x, nx) && is_whole(y, ny);
    (!whole).then(|| "the sheet covers a part of x and y only".into())
}

/// Planes that a box should leave alone.
pub fn boxes(plan: &Plan) -> Option<String> {
    let (first, last) = plan.wave_planes();
    let planes = &plan.head.planes;
    let (from, to) = plan.sheet_planes();
    let thick = plan.layer_on_z().map_or(0, |layer| layer.thickness);
    let nz = plan.grid.cells[2];
    for (index, part) in plan.head.boxes.iter().enumerate() {
        let [low, high] = part.cells.z.unwrap_or([0, nz]);
        let has = |k: usize| low <= k && k < high;
        let place = if has(first) || has(first.saturating_sub(1)) || last.is_some_and(has) {
            "the wave's own planes"
        } else if planes.reflected.is_some_and(has) || has(planes.transmitted) {
            "a plane that is read"
        } else if low < thick || high.saturating_add(thick) > nz {
            "the absorbing layer"
        } else if low < to && from < high {
            "the sheet's place, where it stands in the empty head too"
        } else {
            continue;
        };
        return Some(format!("boxes[{index}] reaches into {place}: move it"));
    }
    None
}
