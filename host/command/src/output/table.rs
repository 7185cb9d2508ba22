//! The curve as a table: for a person, and as CSV.

use crate::curve::{Curve, Row, other_constants};
use crate::text::plain;

/// A frequency for a reader, with no more places than it has.
pub fn in_hertz(frequency: f64) -> String {
    let units = [(1e9, "GHz"), (1e6, "MHz"), (1e3, "kHz")];
    let (size, unit) = units.into_iter().find(|(size, _)| frequency >= *size).unwrap_or((1.0, "Hz"));
    let short = format!("{:.6}", frequency / size);
    format!("{} {unit}", short.trim_end_matches('0').trim_end_matches('.'))
}

/// A number for a reader, in five digits that count: as a decimal from 1e-4 to 1e6, with its exponent beyond.
pub fn digits(number: f64) -> String {
    if number == 0.0 || !number.is_finite() {
        return format!("{}", number + 0.0);
    }
    let short = format!("{number:.4e}");
    // of the rounded number, which may have one place more
    let exponent = short.split_once('e').and_then(|(_, exponent)| exponent.parse::<i32>().ok());
    match exponent {
        Some(exponent @ -4..=5) => format!("{number:.places$}", places = (4 - exponent).max(0) as usize),
        _ => short,
    }
}

/// The names of the columns.
pub fn columns(curve: &Curve) -> Vec<String> {
    let mut names = vec!["moisture %".to_string()];
    for &frequency in &curve.frequencies {
        let at = in_hertz(frequency);
        names.extend([format!("dB at {at}"), format!("degrees at {at}")]);
        if curve.has_reflected() {
            names.push(format!("reflected at {at}"));
        }
    }
    names.push("energy through".into());
    names
}

/// Each row's numbers in the order of the columns.
pub fn numbers(curve: &Curve) -> Vec<Vec<f64>> {
    let row = |row: &Row| {
        let values =
            row.values.iter().flat_map(|value| [Some(value.db), Some(value.degrees), value.reflected].into_iter().flatten());
        [row.sheet.moisture].into_iter().chain(values).chain([row.energy]).collect()
    };
    curve.rows.iter().map(row).collect()
}

/// Each row as a person reads it, its moisture as the head has it.
pub fn cells(curve: &Curve) -> Vec<Vec<String>> {
    let row = |row: Vec<f64>| {
        let moisture = row.first().map(f64::to_string);
        moisture.into_iter().chain(row.iter().skip(1).map(|number| digits(*number))).collect()
    };
    numbers(curve).into_iter().map(row).collect()
}

/// Rows one below the other, each column to the right and as wide as its widest cell.
fn aligned(rows: &[Vec<String>]) -> String {
    let width = |column: usize| rows.iter().filter_map(|row| row.get(column)).map(|cell| cell.chars().count()).max();
    let widths: Vec<usize> = (0..).map_while(width).collect();
    let line = |row: &Vec<String>| {
        let cells: Vec<String> = row.iter().zip(&widths).map(|(cell, width)| format!("{cell:>width$}")).collect();
        cells.join("  ") + "\n"
    };
    rows.iter().map(line).collect()
}

/// For a person, who has been told of the layer already: other constants than the old ones, the warnings and the table.
pub fn text(curve: &Curve) -> String {
    let first = other_constants(curve.constants).into_iter().chain(curve.first_lines().skip(1));
    let mut out: String = first.map(|line| line + "\n").collect();
    let rows: Vec<Vec<String>> = [columns(curve)].into_iter().chain(cells(curve)).collect();
    out += &format!("\n{}", aligned(&rows));
    out.push_str("\ndB and degrees are against the empty head, as is the energy; reflected is a part of the incident power\n");
    // a long table has scrolled its head away
    if curve.layer_is_missing() {
        out += &format!("{}\n", curve.told());
    }
    out
}

/// As CSV, its head in lines that begin with #. Each number reads back as it was.
pub fn csv(curve: &Curve, about: &[String]) -> Result<Vec<u8>, csv::Error> {
    let head = curve.first_lines().chain(curve.notes.iter().cloned()).chain(about.iter().cloned());
    let out: String = head.map(|line| format!("# {}\n", plain(&line.replace(['\n', '\r', '\t'], " ")))).collect();
    let mut writer = csv::Writer::from_writer(out.into_bytes());
    writer.write_record(columns(curve))?;
    for row in numbers(curve) {
        writer.write_record(row.iter().map(|number| format!("{number:?}")))?;
    }
    writer.into_inner().map_err(|failed| csv::Error::from(std::io::Error::other(failed.to_string())))
}

#[cfg(test)]
mod tests {
    use super::*;

    #[test]
    fn numbers_keep_five_digits() {
        let cases = [
            (0.0000123, "1.2300e-5"),
            (-164.2, "-164.20"),
            (99.99999, "100.00"),
            (1e-7, "1.0000e-7"),
            (0.0, "0"),
            (-0.0, "0"),
            (123456.7, "123457"),
            (0.0001, "0.00010000"),
            (0.000099999, "9.9999e-5"),
            (0.0000999999, "0.00010000"),
            (999999.7, "1.0000e6"),
            (-999994.0, "-999994"),
            (-1.23456789e-300, "-1.2346e-300"),
            (f64::MAX, "1.7977e308"),
            (5e-324, "4.9407e-324"),
            (f64::NAN, "NaN"),
            (f64::INFINITY, "inf"),
            (f64::NEG_INFINITY, "-inf"),
        ];
        for (number, text) in cases {
            assert_eq!(digits(number), text);
        }
    }

    #[test]
    fn a_wide_number_widens_its_column() {
        let rows = [["a", "name"], ["-1.2346e-300", "1"]].map(|row| row.map(String::from).to_vec());
        assert_eq!(aligned(&rows), "           a  name\n-1.2346e-300     1\n");
    }
}
