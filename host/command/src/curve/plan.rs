//! What a head's file asks for: the grid, the points of the curve, where things stand; and whether a curve can be had from it.

use crate::curve::checks;
use crate::head::mixture::Shares;
use crate::head::trouble::Trouble;
use crate::head::{Edge, Head, MoisturePart, PaperPart, Sheet, Wave};
use cichowiej::{CellBox, CpmlConfig, Grid, Material, Refusal, Source};

/// A study of the curve: a moisture in percent with the sheet's material, or the empty head, or air alone.
#[derive(Debug, Clone)]
pub struct Point {
    pub sheet: Option<WetSheet>,
    /// Whether the head's boxes stand in it.
    pub boxes: bool,
    /// The key that it comes from.
    pub key: String,
}

/// The sheet at a moisture, in percent of its weight.
#[derive(Debug, Clone)]
pub struct WetSheet {
    pub moisture: f64,
    pub material: Material,
    /// What fills its volume, where it is a mixture.
    pub shares: Option<Shares>,
}

impl Point {
    pub fn name(&self) -> String {
        match &self.sheet {
            Some(sheet) => format!("moisture {} %", sheet.moisture),
            None if self.boxes => "the empty head".into(),
            None => "air alone".into(),
        }
    }
}

/// Everything that the points share.
pub struct Plan<'a> {
    pub head: &'a Head,
    pub grid: Grid,
    pub source: Source,
    pub frequencies: Vec<f64>,
    pub steps: usize,
    /// The empty head first, and then each moisture; last, where the head has boxes and what comes back is asked for, air alone.
    pub points: Vec<Point>,
    pub sheet: CellBox,
}

impl<'a> Plan<'a> {
    pub fn new(head: &'a Head) -> Result<Self, Trouble> {
        let points = points(head)?;
        let plan = Self {
            head,
            grid: grid(head, &points)?,
            source: head.source.source(),
            frequencies: frequencies(head)?,
            steps: steps(head)?,
            points,
            sheet: head.sheet.cells.cell_box(),
        };
        checks::check(&plan)?;
        Ok(plan)
    }

    /// The head's own materials, with their names.
    pub fn materials(&self) -> impl Iterator<Item = (&str, Material)> {
        self.head.materials.iter().map(|(name, part)| (name.as_str(), part.material()))
    }

    /// The planes of the sheet, from the first up to, not with, the last, cut to the grid.
    pub fn sheet_planes(&self) -> (usize, usize) {
        (self.sheet.z.0, self.sheet.z.1.min(self.grid.cells[2]))
    }

    /// The first and the last plane of the wave's region.
    pub fn wave_planes(&self) -> (usize, Option<usize>) {
        match &self.head.wave {
            Wave::Slab(part) => (part.k0, Some(part.k1)),
            Wave::Injector(part) => (part.k0, None),
            Wave::Box(part) => (part.corners[4], Some(part.corners[5])),
        }
    }

    /// The absorbing layer's numbers, if it is asked for along z.
    pub fn layer_on_z(&self) -> Option<CpmlConfig> {
        match &self.head.edge {
            Edge::Layer(part) => Some(part.config()).filter(|config| config.axes[2]),
            _ => None,
        }
    }
}

fn grid(head: &Head, points: &[Point]) -> Result<Grid, Trouble> {
    let sheets = points.iter().filter_map(|point| point.sheet.as_ref()).map(|sheet| sheet.material.poles.len());
    let others = head.materials.values().map(|part| part.poles.len());
    let slots = head.grid.pole_slots.unwrap_or_else(|| sheets.chain(others).max().unwrap_or(0));
    head.grid.grid(slots).ok_or_else(|| Trouble::at("grid", "it needs dt or courant, one of the two"))
}

fn frequencies(head: &Head) -> Result<Vec<f64>, Trouble> {
    let all: Vec<f64> = head.gauge.frequencies.iter().map(|frequency| frequency.0).collect();
    let good = !all.is_empty() && all.iter().all(|f| f.is_finite() && *f > 0.0);
    if good { Ok(all) } else { Err(Trouble::at("gauge.frequencies", "one or more are needed, each larger than 0")) }
}

fn steps(head: &Head) -> Result<usize, Trouble> {
    match head.run.steps {
        0 => Err(Trouble::at("run.steps", "1 or more are needed")),
        steps if steps > u32::MAX as usize => Err(Trouble::refused("run.steps", Refusal::SpentClock)),
        steps => Ok(steps),
    }
}

fn points(head: &Head) -> Result<Vec<Point>, Trouble> {
    let wet = match &head.sheet.paper {
        None if !head.sheet.moisture.is_empty() => given(&head.sheet),
        Some(part) if head.sheet.moisture.is_empty() => mixed(part),
        _ => Err(Trouble::at("sheet", "it needs [[sheet.moisture]] entries or [sheet.paper], one of the two")),
    };
    let without = |boxes| Point { sheet: None, boxes, key: "sheet".into() };
    let air = (!head.boxes.is_empty() && head.planes.reflected.is_some()).then(|| without(false));
    Ok([without(true)].into_iter().chain(wet?).chain(air).collect())
}

/// Each moisture with its own numbers.
fn given(sheet: &Sheet) -> Result<Vec<Point>, Trouble> {
    let point = |(index, part): (usize, &MoisturePart)| {
        let key = format!("sheet.moisture[{index}]");
        if !(0.0..=100.0).contains(&part.percent) {
            return Err(Trouble::at(format!("{key}.percent"), "it has to be from 0 to 100"));
        }
        let sheet = WetSheet { moisture: part.percent, material: part.material.material(), shares: None };
        Ok(Point { sheet: Some(sheet), boxes: true, key })
    };
    sheet.moisture.iter().enumerate().map(point).collect()
}

/// From what a mill knows.
fn mixed(part: &PaperPart) -> Result<Vec<Point>, Trouble> {
    let paper = part.paper();
    let numbers = [
        ("grammage", paper.grammage),
        ("caliper", paper.caliper),
        ("fibre.density", paper.fibre_density),
        ("water.density", paper.water_density),
    ];
    if let Some((name, _)) = numbers.into_iter().find(|(_, number)| !(number.is_finite() && *number > 0.0)) {
        return Err(Trouble::at(format!("sheet.paper.{name}"), "it has to be a number larger than 0"));
    }
    let point = |(index, &moisture): (usize, &f64)| {
        let key = format!("sheet.paper.moistures[{index}]");
        let mixture = paper.shares(moisture).and_then(|shares| Ok((shares, paper.mixed(moisture)?)));
        let (shares, material) = mixture.map_err(|misfit| Trouble::at(&key, misfit.to_string()))?;
        Ok(Point { sheet: Some(WetSheet { moisture, material, shares: Some(shares) }), boxes: true, key })
    };
    match part.moistures.as_slice() {
        [] => Err(Trouble::at("sheet.paper.moistures", "one or more are needed")),
        moistures => moistures.iter().enumerate().map(point).collect(),
    }
}
