//! A save's records, and what each of their numbers is (document 01, "The save").

use cichowiej::{Constants, LINE_PAD, MATERIAL_LENGTH};
use std::io::{self, Read, Take};

/// In their order.
pub const MARKS: [&str; 11] = ["GH", "ML", "CI", "CM", "FE", "FH", "LE", "LH", "LT", "PP", "AX"];

/// A record's mark and the length of its payload, which stand before that.
pub const FRAME_LENGTH: usize = 6;

/// The first record's payload ends in the constants. A save of an older library has no byte for them, and the old ones.
const GRID_LENGTH: usize = 74;
const OLD_GRID_LENGTH: usize = 73;

/// A payload that is read whole is never longer: the materials'.
const LONGEST_WHOLE: u64 = 16 * MATERIAL_LENGTH as u64;

/// The payload of the next record of a save, which has to have this mark. It has to be read to its end before the next.
pub fn payload<'a, R: Read>(save: &'a mut R, mark: &str) -> io::Result<Take<&'a mut R>> {
    let mut frame = [0; FRAME_LENGTH];
    save.read_exact(&mut frame)?;
    let [first, second, length @ ..] = frame;
    if mark.as_bytes() != [first, second] {
        return Err(io::ErrorKind::InvalidData.into());
    }
    Ok(save.take(u32::from_le_bytes(length).into()))
}

/// All of a short payload.
pub fn whole(mut payload: Take<impl Read>) -> io::Result<Vec<u8>> {
    let length = payload.limit();
    if length > LONGEST_WHOLE {
        return Err(io::ErrorKind::InvalidData.into());
    }
    let mut bytes = vec![0; length as usize];
    payload.read_exact(&mut bytes)?;
    Ok(bytes)
}

/// Reads over a payload.
pub fn skip(mut payload: Take<impl Read>) -> io::Result<()> {
    let length = payload.limit();
    let skipped = io::copy(&mut payload, &mut io::sink())?;
    if skipped == length { Ok(()) } else { Err(io::ErrorKind::UnexpectedEof.into()) }
}

fn bytes_at<const N: usize>(payload: &[u8], at: usize) -> Option<[u8; N]> {
    payload.get(at..)?.first_chunk().copied()
}

pub fn double(payload: &[u8], at: usize) -> Option<f64> {
    bytes_at(payload, at).map(f64::from_le_bytes)
}

pub fn count(payload: &[u8], at: usize) -> Option<u32> {
    bytes_at(payload, at).map(u32::from_le_bytes)
}

pub fn short(payload: &[u8], at: usize) -> Option<usize> {
    bytes_at(payload, at).map(|bytes| usize::from(u16::from_le_bytes(bytes)))
}

pub fn byte(payload: &[u8], at: usize) -> Option<usize> {
    payload.get(at).map(|byte| usize::from(*byte))
}

/// Those of a first record's payload; None where it has another length than such a payload, or another number.
pub fn constants(grid: &[u8]) -> Option<Constants> {
    match grid.len() {
        OLD_GRID_LENGTH => Some(Constants::Old),
        GRID_LENGTH => Constants::numbered(byte(grid, OLD_GRID_LENGTH)?),
        _ => None,
    }
}

/// What the first record says of the others.
#[derive(Debug, Clone, Copy, PartialEq, Eq)]
pub struct Shape {
    pub cells: [usize; 3],
    pub pole_slots: usize,
    pub steps: usize,
}

impl Shape {
    /// From a save or its beginning.
    pub fn of_save(mut save: impl Read) -> Option<Self> {
        Self::of_grid(&payload(&mut save, "GH").and_then(whole).ok()?)
    }

    /// From the first record's payload.
    pub fn of_grid(grid: &[u8]) -> Option<Self> {
        constants(grid)?;
        let cells = [short(grid, 0)?, short(grid, 2)?, short(grid, 4)?];
        Some(Self { cells, pole_slots: byte(grid, 14)?, steps: count(grid, 69)? as usize })
    }

    /// What number `index` of a record is, and of which cell.
    pub fn place(&self, mark: &str, index: usize) -> String {
        match mark {
            "LT" => self.table_place(index),
            "AX" => self.line_place(index),
            _ => self.cell_place(mark, index),
        }
    }

    fn cell_place(&self, mark: &str, index: usize) -> String {
        // an accepted save has no side of 0
        let [nx, ny, nz] = self.cells.map(|n| n.max(1));
        let all = nx * ny * nz;
        let cell = index % all;
        let (i, j, k) = (cell % nx, cell / nx % ny, cell / (nx * ny));
        format!("{} at ({i}, {j}, {k})", self.part(mark, index / all))
    }

    fn part(&self, mark: &str, part: usize) -> String {
        let names: &[&str] = match mark {
            "CI" => &["material"],
            "CM" => &["eps_r", "mu_r", "sigma"],
            "FE" => &["ex", "ey", "ez"],
            "FH" => &["hx", "hy", "hz"],
            "LE" => &["psi_exy", "psi_exz", "psi_eyz", "psi_eyx", "psi_ezx", "psi_ezy"],
            "LH" => &["psi_hxy", "psi_hxz", "psi_hyz", "psi_hyx", "psi_hzx", "psi_hzy"],
            _ => return self.pole_part(part),
        };
        names.get(part).map_or_else(|| format!("part {part}"), |name| name.to_string())
    }

    /// The polarization by slot and component, that of the step before alike, and then the change of all slots together.
    fn pole_part(&self, part: usize) -> String {
        let axis = ["x", "y", "z"].get(part % 3).copied().unwrap_or("");
        let slot = part / 3;
        if slot < self.pole_slots {
            format!("p{axis} of pole {slot}")
        } else if slot < 2 * self.pole_slots {
            format!("p{axis} a step before of pole {}", slot - self.pole_slots)
        } else {
            format!("dp{axis}")
        }
    }

    fn table_place(&self, index: usize) -> String {
        let mut index = index;
        for ((axis, letter), n) in ["x", "y", "z"].into_iter().zip(["i", "j", "k"]).zip(self.cells) {
            if let Some(name) = index.checked_div(n).and_then(|part| TABLES.get(part)) {
                return format!("{name} of {axis} at {letter} = {}", index % n);
            }
            index -= TABLES.len() * n;
        }
        format!("number {index} past the tables")
    }

    /// The line has planes below the grid's first one.
    fn line_place(&self, index: usize) -> String {
        let places = self.cells[2] + 2 * LINE_PAD;
        let name = ["ex", "hy"].get(index / places).copied().unwrap_or("number");
        let k = (index % places) as i64 - LINE_PAD as i64;
        format!("{name} of the incident wave at k = {k}")
    }
}

const TABLES: [&str; 6] = ["kinv_e", "b_e", "c_e", "kinv_h", "b_h", "c_h"];

#[cfg(test)]
mod tests {
    use super::*;
    use cichowiej::{Grid, Study};

    /// The lengths of a save's payloads.
    fn skipped(mut save: &[u8]) -> io::Result<Vec<u64>> {
        let mut one = |mark: &&str| {
            let payload = payload(&mut save, mark)?;
            let length = payload.limit();
            skip(payload).map(|()| length)
        };
        MARKS.iter().map(&mut one).collect()
    }

    #[test]
    fn a_save_is_its_records() {
        let grid = Grid { cells: [2, 3, 4], pitch: [1e-3; 3], dt: 1e-12, pole_slots: 2, constants: Constants::Si2019 };
        let save = Study::open(&grid).unwrap().save().unwrap();
        let (n, l) = (24, 9);
        let lengths = [74, 125, 4 * n, 24 * n, 24 * n, 24 * n, 48 * n, 48 * n, 48 * l, 8 * (6 * 2 + 3) * n, 16 * (4 + 48)];
        assert_eq!(skipped(&save).unwrap(), lengths.map(|length| length as u64));
        assert_eq!(lengths.iter().sum::<usize>() + 6 * 11, save.len());
        assert_eq!(Shape::of_save(&save[..]), Some(Shape { cells: [2, 3, 4], pole_slots: 2, steps: 0 }));
        for end in 0..save.len() {
            assert!(skipped(&save[..end]).is_err());
        }
    }

    /// The first record of an older library's save has no byte for the constants.
    #[test]
    fn saves_of_both_lengths_are_saves() {
        let grid = Grid { cells: [2, 3, 4], pitch: [1e-3; 3], dt: 1e-12, pole_slots: 2, constants: Constants::Old };
        let save = Study::open(&grid).unwrap().save().unwrap();
        let with = |length: u8, at: usize, bytes: &[u8]| [b"GH", &[length, 0, 0, 0][..], &save[6..at], bytes].concat();
        let shape = Shape::of_save(&save[..]);
        assert!(shape.is_some());
        for first in [with(74, 79, &[0]), with(74, 79, &[1]), with(73, 79, &[]), with(73, 79, b"M")] {
            assert_eq!(Shape::of_save(&first[..]), shape, "{first:?}");
        }
        for first in [with(74, 79, &[2]), with(74, 79, &[]), with(75, 79, &[0, 0]), with(72, 78, &[])] {
            assert_eq!(Shape::of_save(&first[..]), None, "{first:?}");
        }
    }

    #[test]
    fn numbers_have_the_names_of_the_header() {
        let shape = Shape { cells: [2, 3, 4], pole_slots: 2, steps: 0 };
        let n = 24;
        assert_eq!(shape.place("CI", 23), "material at (1, 2, 3)");
        assert_eq!(shape.place("CM", 2 * n), "sigma at (0, 0, 0)");
        assert_eq!(shape.place("FE", n + 2), "ey at (0, 1, 0)");
        assert_eq!(shape.place("FH", 6 + 1), "hx at (1, 0, 1)");
        assert_eq!(shape.place("LE", 3 * n), "psi_eyx at (0, 0, 0)");
        assert_eq!(shape.place("PP", n), "py of pole 0 at (0, 0, 0)");
        assert_eq!(shape.place("PP", 5 * n), "pz of pole 1 at (0, 0, 0)");
        assert_eq!(shape.place("PP", 6 * n), "px a step before of pole 0 at (0, 0, 0)");
        assert_eq!(shape.place("PP", 12 * n), "dpx at (0, 0, 0)");
        assert_eq!(shape.place("LT", 1), "kinv_e of x at i = 1");
        assert_eq!(shape.place("LT", 12), "kinv_e of y at j = 0");
        assert_eq!(shape.place("LT", 12 + 18 + 4 * 5 + 3), "c_h of z at k = 3");
        assert_eq!(shape.place("AX", 0), "ex of the incident wave at k = -24");
        assert_eq!(shape.place("AX", 52 + 24 + 3), "hy of the incident wave at k = 3");
    }
}
