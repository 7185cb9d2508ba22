//! What stands above the panels, laid out before the picture is opened: the picture is higher by as much.

use super::marks::{self, MARKS, shade};
use super::words::wrapped;
use super::{Area, WIDTH};
use crate::curve::warnings::Warning;
use crate::curve::{Curve, other_constants};
use crate::output::table::in_hertz;
use plotters::prelude::*;
use std::error::Error;

const LEFT: i32 = 24;
const RIGHT: i32 = WIDTH - 24;

/// A line of text, and where its upper left corner is.
struct Line {
    words: String,
    at: (i32, i32),
    size: i32,
    colour: RGBColor,
}

/// Title, what has to be known of the layer and the constants, warnings, and which mark is which frequency.
pub struct Above {
    lines: Vec<Line>,
    /// Where a missing layer stands white in a dark band.
    band: Option<[(i32, i32); 2]>,
    /// Where each frequency's piece of line begins.
    legend: Vec<(i32, i32)>,
    pub height: i32,
}

impl Above {
    pub fn new(curve: &Curve) -> Self {
        let mut above = Self { lines: Vec::new(), band: None, legend: Vec::new(), height: 14 };
        above.write(&curve.title, 24, BLACK);
        above.height += 4;
        if curve.layer_is_missing() {
            above.write_in_band(&curve.told());
        } else {
            above.write(&curve.told(), 14, BLACK);
        }
        for line in further(curve) {
            above.write(&line, 14, BLACK);
        }
        above.place(curve);
        above
    }

    /// A text in lines, from where the last one ends.
    fn write(&mut self, text: &str, size: i32, colour: RGBColor) {
        // the backend draws a font in 1/1.24 of its size
        for words in wrapped(text, (RIGHT - LEFT) * 124 / size) {
            self.lines.push(Line { words, at: (LEFT, self.height), size, colour });
            self.height += size + 4;
        }
    }

    fn write_in_band(&mut self, text: &str) {
        let top = self.height;
        self.height += 6;
        self.write(text, 18, WHITE);
        self.height += 4;
        self.band = Some([(16, top), (WIDTH - 16, self.height)]);
        self.height += 6;
    }

    /// The legend, from left to right and in as many lines as it needs.
    fn place(&mut self, curve: &Curve) {
        let (mut x, mut y) = (LEFT, self.height + 14);
        for frequency in &curve.frequencies {
            let wide = 60 + 9 * in_hertz(*frequency).len() as i32;
            if x > LEFT && x + wide > RIGHT {
                (x, y) = (LEFT, y + 22);
            }
            self.legend.push((x, y));
            x += wide;
        }
        self.height = y + 12;
    }

    pub fn draw(&self, whole: &Area, curve: &Curve) -> Result<(), Box<dyn Error>> {
        if let Some(band) = self.band {
            whole.draw(&Rectangle::new(band, RGBColor(150, 0, 0).filled()))?;
        }
        for line in &self.lines {
            let style = ("sans-serif", line.size).into_font().color(&line.colour);
            whole.draw(&Text::new(line.words.clone(), line.at, style))?;
        }
        self.draw_legend(whole, curve)
    }

    fn draw_legend(&self, whole: &Area, curve: &Curve) -> Result<(), Box<dyn Error>> {
        for (which, (frequency, &(x, y))) in curve.frequencies.iter().zip(&self.legend).enumerate() {
            whole.draw(&PathElement::new([(x, y), (x + 30, y)], shade(which).stroke_width(2)))?;
            marks::draw(whole, which, (x + 15, y))?;
            whole.draw(&Text::new(in_hertz(*frequency), (x + 38, y - 7), ("sans-serif", 15).into_font()))?;
        }
        Ok(())
    }
}

/// Below what is told of the layer.
fn further(curve: &Curve) -> impl Iterator<Item = String> + '_ {
    let warnings = curve.warnings.iter().map(Warning::to_string);
    let alike = (curve.frequencies.len() > MARKS)
        .then(|| format!("there are {MARKS} marks: from frequency {} on they come again in the same order", MARKS + 1));
    other_constants(curve.constants).into_iter().chain(warnings).chain(alike)
}
