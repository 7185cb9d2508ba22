//! What keeps a curve from being read: places in an order that has no transmission, boxes without a cell, a sheet of another weight, materials and layers that give
//! energy.

use crate::curve::plan::Plan;
use crate::head::trouble::Trouble;
use crate::head::{Cells, Edge, LayerPart, MaterialPart, PaperPart, PartOfPaper, PolePart};
use cichowiej::{Refusal, Source};

pub fn check(plan: &Plan) -> Result<(), Trouble> {
    periodic(plan)?;
    edge(&plan.head.edge)?;
    source(plan)?;
    materials(plan)?;
    boxes(plan)?;
    order(plan)?;
    plan.head.sheet.paper.as_ref().map_or(Ok(()), |part| paper(plan, part))
}

/// The engine makes an axis with a layer periodic no more.
fn periodic(plan: &Plan) -> Result<(), Trouble> {
    match &plan.head.edge {
        Edge::Layer(part) if part.axes.iter().any(|axis| plan.head.periodic.contains(axis)) => {
            Err(Trouble::at("periodic", "an axis of it is in edge.layer.axes too: it is the one or the other"))
        }
        _ => Ok(()),
    }
}

/// A number that is one, and not too small.
fn at_least(key: &str, number: f64, least: f64) -> Result<(), Trouble> {
    let good = number.is_finite() && number >= least;
    if good { Ok(()) } else { Err(Trouble::at(key, format!("{number} has to be {least} or more"))) }
}

/// A number that is one, and not 0 or next to it.
fn above_zero(key: &str, number: f64) -> Result<(), Trouble> {
    let good = number.is_normal() && number > 0.0;
    if good { Ok(()) } else { Err(Trouble::at(key, format!("{number:?} has to be a finite number, clearly above 0"))) }
}

/// With other numbers a layer gives energy or has tables that are no numbers; with a sigma_scale of 0 it is weak, and warned of.
fn edge(edge: &Edge) -> Result<(), Trouble> {
    match edge {
        Edge::Layer(part) => layer(part),
        Edge::Lossy(part) => at_least("edge.lossy.sigma_max", part.sigma_max.0, 0.0),
        Edge::Conductor(_) => Ok(()),
    }
}

fn layer(part: &LayerPart) -> Result<(), Trouble> {
    at_least("edge.layer.order", part.order, 0.0)?;
    at_least("edge.layer.kappa_max", part.kappa_max, 1.0)?;
    at_least("edge.layer.alpha_factor", part.alpha_factor, 0.0)?;
    at_least("edge.layer.alpha_order", part.alpha_order, 0.0)?;
    at_least("edge.layer.sigma_scale", part.sigma_scale, 0.0)?;
    let target = part.target_reflection;
    if target > 0.0 && target < 1.0 {
        return Ok(());
    }
    Err(Trouble::at("edge.layer.target_reflection", format!("{target} has to be above 0 and below 1")))
}

/// A pulse without a width has no spectrum, and a negative one hides its own.
fn source(plan: &Plan) -> Result<(), Trouble> {
    let (kind, parts) = match &plan.source {
        Source::Gaussian { width, delay, .. } => ("gaussian", vec![("width", *width, true), ("delay", *delay, false)]),
        Source::Modulated { width, delay, frequency, .. } => {
            ("modulated", vec![("width", *width, true), ("delay", *delay, false), ("frequency", *frequency, true)])
        }
        Source::Continuous { frequency, ramp, .. } => {
            ("continuous", vec![("frequency", *frequency, true), ("ramp", *ramp, false)])
        }
        Source::Table { samples } => ("table", samples.iter().map(|sample| ("samples", sample.abs(), false)).collect()),
    };
    for (name, number, positive) in parts {
        let good = number.is_finite() && if positive { number > 0.0 } else { number >= 0.0 };
        if !good {
            let least = if positive { "larger than 0" } else { "0 or more" };
            return Err(Trouble::at(format!("source.{kind}.{name}"), format!("it has to be a number, {least}")));
        }
    }
    Ok(())
}

/// The wave has to meet, one after another: the plane that counts what comes back, its own first plane, the sheet, the plane behind it.
fn order(plan: &Plan) -> Result<(), Trouble> {
    let planes = &plan.head.planes;
    let (first, last) = plan.wave_planes();
    let (from, to) = plan.sheet_planes();
    if planes.reflected.is_some_and(|back| back >= first) {
        let message = format!("it has to lie below the wave's k0 = {first}: from there on the incident wave is in the field");
        return Err(Trouble::at("planes.reflected", message));
    }
    if from >= to || from < first {
        let message = format!(
            "its planes in the grid, z = [{from}, {to}], have to be some, and to lie at or above the wave's k0 = {first}"
        );
        return Err(Trouble::at("sheet.cells", message));
    }
    let behind = planes.transmitted;
    if behind >= plan.grid.cells[2] {
        return Err(Trouble::refused("planes.transmitted", Refusal::NoSuchPlane));
    }
    // ex and hy of the plane both have to be in the region
    if behind < to || last.is_some_and(|last| behind >= last) {
        let end = last.map_or(String::new(), |last| format!(", and below the wave's k1 = {last}"));
        return Err(Trouble::at("planes.transmitted", format!("it has to lie behind the sheet, at {to} or above{end}")));
    }
    Ok(())
}

/// The engine cuts a box to the grid, and a backward one has no cell: in a head that is a slip.
fn boxes(plan: &Plan) -> Result<(), Trouble> {
    for (index, part) in plan.head.boxes.iter().enumerate() {
        in_grid(plan, part.cells, &format!("boxes[{index}].cells"))?;
    }
    in_grid(plan, plan.head.sheet.cells, "sheet.cells")
}

fn in_grid(plan: &Plan, cells: Cells, key: &str) -> Result<(), Trouble> {
    for ((name, range), n) in [("x", cells.x), ("y", cells.y), ("z", cells.z)].into_iter().zip(plan.grid.cells) {
        if let Some([from, to]) = range.filter(|[from, to]| from >= to || *to > n) {
            let message = format!("{name} = [{from}, {to}] has to have a cell and to end at {n}, the grid's last, or before");
            return Err(Trouble::at(key, message));
        }
    }
    Ok(())
}

/// Every material of the file, with its key.
fn materials(plan: &Plan) -> Result<(), Trouble> {
    let head = plan.head;
    for (name, part) in &head.materials {
        passive(part, &format!("materials.{name}"))?;
    }
    for (index, part) in head.sheet.moisture.iter().enumerate() {
        passive(&part.material, &format!("sheet.moisture[{index}].material"))?;
    }
    if let Some(paper) = &head.sheet.paper {
        passive(&paper.fibre.material, "sheet.paper.fibre.material")?;
        passive(&paper.water.material, "sheet.paper.water.material")?;
    }
    Ok(())
}

/// A material that takes energy and gives none.
fn passive(part: &MaterialPart, key: &str) -> Result<(), Trouble> {
    let number = |name: &str, number: f64, least: f64| at_least(&format!("{key}.{name}"), number, least);
    number("eps_inf", part.eps_inf, 1.0)?;
    number("sigma", part.sigma.0, 0.0)?;
    above_zero(&format!("{key}.mu_r"), part.mu_r)?;
    for (index, pole) in part.poles.iter().enumerate() {
        let place = |name: &str| format!("poles[{index}].{name}");
        match pole {
            PolePart::Lorentz(pole) => {
                number(&place("lorentz.delta_eps"), pole.delta_eps, 0.0)?;
                number(&place("lorentz.gamma"), pole.gamma.0, 0.0)?;
            }
            PolePart::Drude(pole) => number(&place("drude.gamma"), pole.gamma.0, 0.0)?,
            PolePart::Debye(pole) => {
                number(&place("debye.delta_eps"), pole.delta_eps, 0.0)?;
                // a tau of 0 is the engine's to refuse, as any pole that cannot be stepped
                if pole.tau.0 != 0.0 {
                    above_zero(&format!("{key}.{}", place("debye.tau")), pole.tau.0)?;
                }
            }
        }
    }
    Ok(())
}

/// A sheet whose box is not as thick as its caliper would have another weight.
fn paper(plan: &Plan, part: &PaperPart) -> Result<(), Trouble> {
    for (name, of) in [("fibre", &part.fibre), ("water", &part.water)] {
        if of.material.mu_r != 1.0 {
            return Err(Trouble::at(
                format!("sheet.paper.{name}.material.mu_r"),
                "the mixture knows no permeability: leave it out",
            ));
        }
    }
    temperature(&part.fibre, "sheet.paper.fibre.temperature")?;
    temperature(&part.water, "sheet.paper.water.temperature")?;
    let caliper = part.caliper.0;
    let (from, to) = plan.sheet_planes();
    let thick = (to - from) as f64 * plan.grid.pitch[2];
    if (thick / caliper - 1.0).abs() <= 1e-6 {
        return Ok(());
    }
    let (count, fitting) = (to - from, 1e6 * caliper / (to - from) as f64);
    let message = format!(
        "it is {:.4} um, and the sheet's {count} cells along z are {:.4} um thick: take a pitch of {fitting:.4} um along z, or other cells",
        1e6 * caliper,
        1e6 * thick
    );
    Err(Trouble::at("sheet.paper.caliper", message))
}

fn temperature(part: &PartOfPaper, key: &str) -> Result<(), Trouble> {
    let good = part.temperature.is_none_or(|celsius| (-50.0..=200.0).contains(&celsius));
    if good { Ok(()) } else { Err(Trouble::at(key, "it is in °C, from -50 to 200; it is told, and changes no number")) }
}
