//! The curve as a picture for a report: transmission and phase over the moisture, readable in grey.

mod above;
mod marks;
mod words;

use crate::curve::{Curve, Row, Value};
use above::Above;
use marks::shade;
use plotters::coord::Shift;
use plotters::prelude::*;
use std::error::Error;
use std::ops::Range;

const WIDTH: i32 = 900;

/// Of the two panels, whatever stands above them.
const PANELS: i32 = 770;

/// The numbers' range with some room, and never empty.
fn range(numbers: impl Iterator<Item = f64>) -> Range<f64> {
    let finite = numbers.filter(|number| number.is_finite());
    let (low, high) = finite.fold((f64::INFINITY, f64::NEG_INFINITY), |(low, high), x| (low.min(x), high.max(x)));
    if low > high {
        return 0.0..1.0;
    }
    let room = if high > low { 0.08 * (high - low) } else { 0.1 * high.abs().max(1.0) };
    low - room..high + room
}

/// A tick's number, with no more places than it has; 0 has no sign.
fn tick(number: &f64) -> String {
    let text = format!("{number:.6}");
    let short = text.trim_end_matches('0').trim_end_matches('.');
    if short == "-0" { "0".into() } else { short.into() }
}

type Area<'a> = DrawingArea<SVGBackend<'a>, Shift>;

/// What a panel shows.
struct Panel<'a> {
    curve: &'a Curve,
    name: &'static str,
    number: fn(&Value) -> f64,
    /// Whether the moistures' name stands below it.
    last: bool,
}

impl Panel<'_> {
    /// A line with its points for each frequency.
    fn draw(&self, area: &Area, whole: &Area) -> Result<(), Box<dyn Error>> {
        let across = range(self.curve.rows.iter().map(|row| row.sheet.moisture));
        let up = range(self.curve.rows.iter().flat_map(|row| row.values.iter().map(self.number)));
        let mut chart = ChartBuilder::on(area)
            .margin(12)
            .x_label_area_size(if self.last { 46 } else { 24 })
            .y_label_area_size(70)
            .build_cartesian_2d(across, up)?;
        let mut mesh = chart.configure_mesh();
        mesh.y_desc(self.name).max_light_lines(0).bold_line_style(RGBColor(215, 215, 215));
        mesh.label_style(("sans-serif", 15))
            .axis_desc_style(("sans-serif", 17))
            .x_label_formatter(&tick)
            .y_label_formatter(&tick);
        if self.last {
            mesh.x_desc("moisture, % of the wet sheet's weight");
        }
        mesh.draw()?;
        for which in 0..self.curve.frequencies.len() {
            let points = self.points(which);
            chart.draw_series(LineSeries::new(points.iter().copied(), shade(which).stroke_width(2)))?;
            let mut places = points.iter().map(|point| chart.plotting_area().map_coordinate(point));
            places.try_for_each(|place| marks::draw(whole, which, place))?;
        }
        Ok(())
    }

    /// A frequency's that are numbers, by rising moisture.
    fn points(&self, which: usize) -> Vec<(f64, f64)> {
        let point = |row: &Row| Some((row.sheet.moisture, row.values.get(which).map(self.number)?));
        let mut points: Vec<(f64, f64)> = self.curve.rows.iter().filter_map(point).filter(|point| point.1.is_finite()).collect();
        points.sort_by(|a, b| a.0.total_cmp(&b.0));
        points
    }
}

/// The picture as SVG.
pub fn svg(curve: &Curve) -> Result<String, Box<dyn Error>> {
    let above = Above::new(curve);
    let panel = |name, number, last| Panel { curve, name, number, last };
    let mut out = String::new();
    {
        let size = (WIDTH as u32, (above.height + PANELS) as u32);
        let whole = SVGBackend::with_string(&mut out, size).into_drawing_area();
        whole.fill(&WHITE)?;
        above.draw(&whole, curve)?;
        let (_, body) = whole.split_vertically(above.height);
        let panels = body.split_evenly((2, 1));
        panel("transmission, dB against the empty head", |value: &Value| value.db, false).draw(&panels[0], &whole)?;
        panel("phase, degrees against the empty head", |value: &Value| value.degrees, true).draw(&panels[1], &whole)?;
        whole.present()?;
    }
    Ok(out)
}
