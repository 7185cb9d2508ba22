//! The points of a curve, each frequency's with a shape and a grey of its own.

use super::Area;
use plotters::prelude::*;
use std::error::Error;

type Place = (i32, i32);

/// A shape, by its corners around the point.
enum Shape {
    Disc,
    Ring,
    Filled(&'static [Place]),
    Hollow(&'static [Place]),
    Cross,
}

const UP: &[Place] = &[(0, -6), (-5, 3), (5, 3)];
const DOWN: &[Place] = &[(0, 6), (-5, -3), (5, -3)];
const SQUARE: &[Place] = &[(-4, -4), (4, -4), (4, 4), (-4, 4)];
const DIAMOND: &[Place] = &[(0, -6), (6, 0), (0, 6), (-6, 0)];
const WIDE_UP: &[Place] = &[(0, -8), (-7, 5), (7, 5)];
const WIDE_DOWN: &[Place] = &[(0, 8), (-7, -5), (7, -5)];
const WIDE_SQUARE: &[Place] = &[(-5, -5), (5, -5), (5, 5), (-5, 5)];
const WIDE_DIAMOND: &[Place] = &[(0, -8), (8, 0), (0, 8), (-8, 0)];

const SHAPES: [Shape; 11] = [
    Shape::Disc,
    Shape::Filled(UP),
    Shape::Filled(SQUARE),
    Shape::Ring,
    Shape::Filled(DIAMOND),
    Shape::Hollow(WIDE_UP),
    Shape::Cross,
    Shape::Filled(DOWN),
    Shape::Hollow(WIDE_SQUARE),
    Shape::Hollow(WIDE_DIAMOND),
    Shape::Hollow(WIDE_DOWN),
];

/// From the darkest on.
const GREYS: [u8; 3] = [0, 90, 150];

/// How many frequencies have marks of their own: the two numbers have no divisor in common, so that every shape meets every grey.
pub const MARKS: usize = SHAPES.len() * GREYS.len();

/// A frequency's grey, of its marks and of the line between them.
pub fn shade(which: usize) -> RGBColor {
    let level = GREYS[which % GREYS.len()];
    RGBColor(level, level, level)
}

/// A frequency's mark at a place of the whole picture.
pub fn draw(whole: &Area, which: usize, (x, y): Place) -> Result<(), Box<dyn Error>> {
    let (filled, stroked) = (shade(which).filled(), shade(which).stroke_width(2));
    let around = |corners: &[Place]| -> Vec<Place> { corners.iter().map(|(right, down)| (x + right, y + down)).collect() };
    match &SHAPES[which % SHAPES.len()] {
        Shape::Disc => whole.draw(&Circle::new((x, y), 4, filled))?,
        Shape::Ring => whole.draw(&Circle::new((x, y), 6, stroked))?,
        Shape::Filled(corners) => whole.draw(&Polygon::new(around(corners), filled))?,
        Shape::Hollow(corners) => {
            let closed: Vec<Place> = corners.iter().chain(corners.first()).copied().collect();
            whole.draw(&PathElement::new(around(&closed), stroked))?;
        }
        Shape::Cross => whole.draw(&Cross::new((x, y), 6, stroked))?,
    }
    Ok(())
}

#[cfg(test)]
mod tests {
    use super::*;

    #[test]
    fn every_shape_meets_every_grey() {
        let pairs: std::collections::HashSet<_> = (0..MARKS).map(|which| (which % SHAPES.len(), which % GREYS.len())).collect();
        assert_eq!(pairs.len(), MARKS);
    }
}
