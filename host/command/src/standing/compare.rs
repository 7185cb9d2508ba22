//! In which records and cells two saves differ, and by how much.

use crate::standing::Standing;
use crate::standing::list::{counted, product};
use crate::standing::records::{MARKS, Shape, byte, constants, count, double, payload, short, skip, whole};
use crate::standing::stream::Stream;
use cichowiej::{MATERIAL_LENGTH, pole_place};
use std::io::{self, Read, Take};

/// For two saves that differ in no number.
const SAME_STUDY: &str = "the saves are of the same study; one is from an older library, which wrote no byte for the constants";

/// What is read at a time of each of two payloads: whole numbers of either length.
const PIECE: usize = 1 << 16;

/// The lines for two kept saves, each judged for itself and then read side by side, a piece at a time: two whole saves would be more than it takes to judge one.
pub fn compare_kept(standing: &Standing, ids: [&str; 2]) -> Result<String, String> {
    ids.iter().try_for_each(|id| standing.kept(id).map(drop))?;
    side_by_side(standing, ids)
}

fn side_by_side(standing: &Standing, ids: [&str; 2]) -> Result<String, String> {
    let told = |id: &str, message: &str| format!("{}: {message}", standing.save_path(id).display());
    let opened = |id: &str| Stream::open(&standing.save_path(id)).map_err(|e| told(id, &e.to_string()));
    let (mut first, mut second) = (opened(ids[0])?, opened(ids[1])?);
    let text = compare(&mut first, &mut second);
    for (id, stream) in ids.into_iter().zip([first, second]) {
        if stream.digest().map_err(|e| told(id, &e.to_string()))? != id {
            return Err(told(id, "it was changed while it was compared: try again"));
        }
    }
    text.map_err(|e| format!("the saves' records cannot be read: {e}"))
}

/// The lines for two saves that the engine accepts.
fn compare(first: &mut impl Read, second: &mut impl Read) -> io::Result<String> {
    let mut both = |mark: &str| Ok::<_, io::Error>([whole(payload(first, mark)?)?, whole(payload(second, mark)?)?]);
    let (grids, lists) = (both("GH")?, both("ML")?);
    let [Some(a), Some(b)] = grids.each_ref().map(|grid| Shape::of_grid(grid)) else {
        return Err(io::ErrorKind::InvalidData.into());
    };
    let mut lines = Vec::new();
    if a.cells != b.cells {
        let [a, b] = [a, b].map(|shape| product(shape.cells));
        lines.push(format!("the sizes differ, {a} and {b} cells: what belongs to cells is not compared"));
    }
    lines.extend(fields(&grids[0], &grids[1]).iter().map(|line| format!("GH  {line}")));
    lines.extend(materials(&lists[0], &lists[1]).iter().map(|line| format!("ML  {line}")));
    for mark in MARKS.into_iter().skip(2) {
        let found = record([a, b], mark, payload(first, mark)?, payload(second, mark)?)?;
        lines.extend(found.map(|line| format!("{mark}  {line}")));
    }
    if lines.is_empty() {
        lines.push(if grids[0] == grids[1] { "the saves are equal".into() } else { SAME_STUDY.into() });
    }
    Ok(lines.iter().map(|line| format!("{line}\n")).collect())
}

/// What there is to say of a record of numbers.
fn record(shapes: [Shape; 2], mark: &str, a: Take<impl Read>, b: Take<impl Read>) -> io::Result<Option<String>> {
    let same_cells = shapes[0].cells == shapes[1].cells;
    if !same_cells || a.limit() != b.limit() {
        skip(a)?;
        skip(b)?;
        // poles, with another number of slots
        return Ok(same_cells.then(|| "not compared: the numbers of pole slots differ".into()));
    }
    let found = match mark {
        "CI" => numbers(a, b, |bytes| f64::from(u32::from_le_bytes(bytes))),
        _ => numbers(a, b, f64::from_le_bytes),
    };
    Ok(found?.line(shapes[0], mark))
}

/// How a field of the first record is written.
#[derive(Clone, Copy)]
enum Kind {
    Byte,
    Flag,
    Region,
    Short,
    Count,
    Double,
    Constants,
}

/// The first record's fields and where they begin.
const FIELDS: [(&str, usize, Kind); 27] = [
    ("nx", 0, Kind::Short),
    ("ny", 2, Kind::Short),
    ("nz", 4, Kind::Short),
    ("periodic along x", 6, Kind::Flag),
    ("periodic along y", 7, Kind::Flag),
    ("periodic along z", 8, Kind::Flag),
    ("layer works on x", 9, Kind::Flag),
    ("layer works on y", 10, Kind::Flag),
    ("layer works on z", 11, Kind::Flag),
    ("layer on", 12, Kind::Flag),
    ("materials whose poles act", 13, Kind::Byte),
    ("pole slots", 14, Kind::Byte),
    ("materials", 15, Kind::Byte),
    ("region", 16, Kind::Region),
    ("i0", 17, Kind::Short),
    ("i1", 19, Kind::Short),
    ("j0", 21, Kind::Short),
    ("j1", 23, Kind::Short),
    ("k0", 25, Kind::Short),
    ("k1", 27, Kind::Short),
    ("dx", 29, Kind::Double),
    ("dy", 37, Kind::Double),
    ("dz", 45, Kind::Double),
    ("dt", 53, Kind::Double),
    ("time", 61, Kind::Double),
    ("steps", 69, Kind::Count),
    ("constants", 73, Kind::Constants),
];

fn written(payload: &[u8], at: usize, kind: Kind) -> Option<String> {
    let named = |names: &[&str], number: usize| names.get(number).map_or(number.to_string(), |name| name.to_string());
    match kind {
        Kind::Byte => byte(payload, at).map(|number| number.to_string()),
        Kind::Flag => byte(payload, at).map(|number| named(&["no", "yes"], number)),
        Kind::Region => byte(payload, at).map(|number| named(&["none", "slab", "injector", "box"], number)),
        Kind::Short => short(payload, at).map(|number| number.to_string()),
        Kind::Count => count(payload, at).map(|number| number.to_string()),
        Kind::Double => double(payload, at).map(|number| format!("{number:?}")),
        // an older save has no byte for them
        Kind::Constants => constants(payload).map(|constants| constants.to_string()),
    }
}

fn fields(a: &[u8], b: &[u8]) -> Vec<String> {
    let both = FIELDS.iter().filter_map(|(name, at, kind)| Some((name, written(a, *at, *kind)?, written(b, *at, *kind)?)));
    both.filter(|(_, a, b)| a != b).map(|(name, a, b)| format!("{name}: {a} and {b}")).collect()
}

fn materials(a: &[u8], b: &[u8]) -> Vec<String> {
    let (a, b) = (a.as_chunks::<MATERIAL_LENGTH>().0, b.as_chunks::<MATERIAL_LENGTH>().0);
    let line = |nth: usize| match (a.get(nth), b.get(nth)) {
        (Some(a), Some(b)) if a == b => None,
        (Some(a), Some(b)) => Some(format!("material {nth}: {}", material(a, b))),
        (Some(_), None) => Some(format!("material {nth}: in the first save alone")),
        (None, _) => Some(format!("material {nth}: in the second save alone")),
    };
    (0..a.len().max(b.len())).filter_map(line).collect()
}

/// What differs in a material: numbers, then poles.
fn material(a: &[u8], b: &[u8]) -> String {
    let parts = [("eps_inf", 0), ("sigma", 8), ("mu_r", 16)];
    let of_numbers = parts.map(|(name, at)| (name.to_string(), written(a, at, Kind::Double), written(b, at, Kind::Double)));
    let of_poles = [0, 1, 2, 3].map(|place| (format!("pole {place}"), pole(a, place), pole(b, place)));
    let all = of_numbers.into_iter().chain(of_poles).filter(|(_, a, b)| a != b);
    all.map(|(name, a, b)| format!("{name} {} and {}", a.unwrap_or_default(), b.unwrap_or_default()))
        .collect::<Vec<_>>()
        .join("; ")
}

/// As Debye(2.0, 9e-12), its numbers in the order of `Pole`.
fn pole(material: &[u8], place: usize) -> Option<String> {
    let at = pole_place(place);
    let (name, length) = match byte(material, at)? {
        1 => ("Lorentz", 3),
        2 => ("Drude", 2),
        3 => ("Debye", 2),
        _ => return Some("none".into()),
    };
    let numbers = (0..length).map(|nth| double(material, at + 1 + 8 * nth).map(|number| format!("{number:?}")));
    Some(format!("{name}({})", numbers.collect::<Option<Vec<_>>>()?.join(", ")))
}

/// Two numbers that differ, and where they stand in their record.
#[derive(Clone, Copy)]
struct Pair {
    index: usize,
    a: f64,
    b: f64,
}

impl Pair {
    /// A number and none are as far apart as can be.
    fn distance(&self) -> f64 {
        let distance = (self.a - self.b).abs();
        if distance.is_nan() { f64::INFINITY } else { distance }
    }

    fn text(&self, shape: Shape, mark: &str) -> String {
        let place = shape.place(mark, self.index);
        // a material's number is a whole one
        let values = if mark == "CI" { format!("{} and {}", self.a, self.b) } else { format!("{:?} and {:?}", self.a, self.b) };
        format!("{place}, {values}, by {:e}", self.distance())
    }
}

/// How many numbers differ, the first two that do and the two that are farthest apart. +0.0 and -0.0 differ, by 0.
#[derive(Default)]
struct Found {
    all: usize,
    differ: usize,
    ends: Option<(Pair, Pair)>,
}

impl Found {
    fn add(&mut self, a: f64, b: f64) {
        if a.to_bits() != b.to_bits() {
            self.differ += 1;
            let pair = Pair { index: self.all, a, b };
            let (first, most) = self.ends.unwrap_or((pair, pair));
            self.ends = Some((first, if pair.distance() > most.distance() { pair } else { most }));
        }
        self.all += 1;
    }

    fn line(&self, shape: Shape, mark: &str) -> Option<String> {
        let (first, most) = self.ends?;
        let (first, most) = (first.text(shape, mark), most.text(shape, mark));
        Some(format!("{} of {} differ; most: {most}; first: {first}", self.differ, counted(self.all, "number")))
    }
}

/// Of two payloads of one length.
fn numbers<const N: usize>(a: Take<impl Read>, b: Take<impl Read>, number: fn([u8; N]) -> f64) -> io::Result<Found> {
    let mut found = Found::default();
    let (mut a, mut b) = (Pieces::of(a), Pieces::of(b));
    while let (Some(a), Some(b)) = (a.next()?, b.next()?) {
        let pairs = a.as_chunks().0.iter().zip(b.as_chunks().0);
        pairs.for_each(|(a, b)| found.add(number(*a), number(*b)));
    }
    Ok(found)
}

/// A payload, piece by piece.
struct Pieces<R> {
    payload: Take<R>,
    piece: Vec<u8>,
}

impl<R: Read> Pieces<R> {
    fn of(payload: Take<R>) -> Self {
        Self { payload, piece: Vec::new() }
    }

    fn next(&mut self) -> io::Result<Option<&[u8]>> {
        let length = self.payload.limit().min(PIECE as u64) as usize;
        self.piece.resize(length, 0);
        self.payload.read_exact(&mut self.piece)?;
        Ok((length > 0).then_some(&*self.piece))
    }
}

#[cfg(test)]
mod tests {
    use super::*;
    use crate::digest::sha256;
    use cichowiej::{CellBox, Constants, Grid, Material, Pole, Put, Study};
    use std::fs;

    fn open(cells: [usize; 3], pole_slots: usize) -> Study {
        Study::open(&Grid { cells, pitch: [1e-3; 3], dt: 1e-12, pole_slots, constants: Constants::Old }).unwrap()
    }

    fn compared(a: &Study, b: &Study) -> Vec<String> {
        bytes_compared(&a.save().unwrap(), &b.save().unwrap()).lines().map(str::to_string).collect()
    }

    fn bytes_compared(mut a: &[u8], mut b: &[u8]) -> String {
        let text = compare(&mut a, &mut b).unwrap();
        assert!(a.is_empty() && b.is_empty());
        text
    }

    #[test]
    fn a_box_is_found_in_its_cells() {
        let (a, mut b) = (open([2, 3, 4], 0), open([2, 3, 4], 0));
        b.put_box(CellBox { x: (1, 2), y: (2, 3), z: (1, 4) }, Put::Numbers { eps_r: 1.0, mu_r: 1.0, sigma: 0.5 }).unwrap();
        b.put_box(CellBox { x: (1, 2), y: (2, 3), z: (2, 3) }, Put::Numbers { eps_r: 1.0, mu_r: 1.0, sigma: -2.0 }).unwrap();
        let line = "CM  3 of 72 numbers differ; most: sigma at (1, 2, 2), 0.0 and -2.0, by 2e0; first: sigma at (1, 2, 1), 0.0 and 0.5, by 5e-1";
        assert_eq!(compared(&a, &b), [line]);
        b.put_box(CellBox { x: (1, 2), y: (2, 3), z: (3, 4) }, Put::Numbers { eps_r: 1.0, mu_r: 1.0, sigma: f64::NAN }).unwrap();
        assert!(compared(&a, &b)[0].contains("most: sigma at (1, 2, 3), 0.0 and NaN, by inf;"), "{:?}", compared(&a, &b));
        let mut c = open([2, 3, 4], 0);
        c.put_box(CellBox { x: (0, 1), y: (0, 1), z: (0, 1) }, Put::Numbers { eps_r: 1.0, mu_r: 1.0, sigma: -0.0 }).unwrap();
        assert!(compared(&a, &c)[0].contains("1 of 72 numbers differ; most: sigma at (0, 0, 0), 0.0 and -0.0, by 0e0"));
        assert_eq!(compared(&b, &b.clone()), ["the saves are equal"]);
    }

    #[test]
    fn fields_and_materials_are_named() {
        let (mut a, mut b) = (open([1, 1, 9], 1), open([1, 1, 9], 1));
        a.add_material(&Material::plain(2.0)).unwrap();
        b.add_material(&Material::plain(3.0).with_pole(Pole::Debye { delta_eps: 2.0, tau: 9e-12 })).unwrap();
        let drude = b.add_material(&Material::plain(4.0)).unwrap();
        b.assign_material_halfspace_z(drude, 7).unwrap();
        b.set_periodic([true, false, false]).unwrap();
        b.slab_z(2, 5).unwrap();
        b.run(&[1.0, 2.0]).unwrap();
        let lines = compared(&a, &b);
        let expected = [
            "GH  periodic along x: no and yes",
            "GH  materials: 2 and 3",
            "GH  region: none and slab",
            "GH  k0: 0 and 2",
            "GH  k1: 0 and 5",
            "GH  time: 0.0 and 2e-12",
            "GH  steps: 0 and 2",
            "ML  material 1: eps_inf 2.0 and 3.0; pole 0 none and Debye(2.0, 9e-12)",
            "ML  material 2: in the second save alone",
            "CI  2 of 9 numbers differ; most: material at (0, 0, 7), 0 and 2, by 2e0; first: material at (0, 0, 7), 0 and 2, by 2e0",
        ];
        assert_eq!(lines[..10], expected);
        assert!(
            lines.last().unwrap().starts_with("AX  ") && lines.last().unwrap().contains("ex of the incident wave at k = -18")
        );
    }

    #[test]
    fn constants_are_named() {
        let grid = Grid { constants: Constants::Si2019, ..open([1, 1, 9], 1).grid() };
        let mut new = Study::open(&grid).unwrap();
        assert_eq!(compared(&open([1, 1, 9], 1), &new), ["GH  constants: old and 2019"]);
        new.set_periodic([false, false, true]).unwrap();
        assert_eq!(compared(&new, &open([1, 1, 9], 1)), ["GH  periodic along z: yes and no", "GH  constants: 2019 and old"]);
    }

    /// A save of an older library is that of the same study with the old constants, and of no other.
    #[test]
    fn a_byte_less_is_no_difference() {
        let old = |save: &[u8]| [b"GH", &[73, 0, 0, 0][..], &save[6..79], &save[80..]].concat();
        let (a, mut b) = (open([1, 1, 9], 1), open([1, 1, 9], 1));
        let [first, second] = [a.save().unwrap(), old(&a.save().unwrap())];
        assert_eq!(bytes_compared(&second, &second), "the saves are equal\n");
        for pair in [[&first, &second], [&second, &first]] {
            assert_eq!(bytes_compared(pair[0], pair[1]), format!("{SAME_STUDY}\n"));
        }
        b.set_periodic([true, false, false]).unwrap();
        assert_eq!(bytes_compared(&second, &b.save().unwrap()), "GH  periodic along x: no and yes\n");
        let new = Study::open(&Grid { constants: Constants::Si2019, ..a.grid() }).unwrap();
        assert_eq!(bytes_compared(&second, &new.save().unwrap()), "GH  constants: old and 2019\n");
    }

    /// Between its judgement and its comparison: another save, a part of the save, more than the save.
    #[test]
    fn a_file_that_was_changed_is_told() {
        let place = tempfile::tempdir().unwrap();
        let standing = Standing::at(place.path());
        let [a, b] = [open([2, 3, 4], 0), open([2, 3, 5], 0)].map(|study| study.save().unwrap());
        let ids = [sha256(&a), sha256(&b)];
        let compared = |bytes: &[u8]| {
            fs::write(standing.save_path(&ids[1]), bytes).unwrap();
            side_by_side(&standing, [&ids[0], &ids[1]])
        };
        fs::write(standing.save_path(&ids[0]), &a).unwrap();
        assert!(compared(&b).unwrap().starts_with("the sizes differ"));
        for changed in [&a[..], &b[..100], &b[..b.len() - 8], &[&b[..], b"!"].concat(), b"", b"this is no save"] {
            let told = format!("{}: it was changed while it was compared: try again", standing.save_path(&ids[1]).display());
            assert_eq!(compared(changed), Err(told));
        }
    }

    #[test]
    fn other_sizes_leave_the_first_two_records() {
        let lines = compared(&open([1, 1, 9], 1), &open([1, 9, 1], 1));
        assert_eq!(lines.len(), 3, "{lines:?}");
        assert!(lines[0].contains("1x1x9 and 1x9x1") && lines[1] == "GH  ny: 1 and 9" && lines[2] == "GH  nz: 9 and 1");
        let mut more = open([1, 1, 9], 2);
        more.put_box(CellBox::planes(3, 4), Put::Numbers { eps_r: 2.0, mu_r: 1.0, sigma: 0.0 }).unwrap();
        let lines = compared(&open([1, 1, 9], 1), &more);
        assert!(lines[0] == "GH  pole slots: 1 and 2" && lines[1].starts_with("CM  1 of 27"), "{lines:?}");
        assert_eq!(lines[2..], ["PP  not compared: the numbers of pole slots differ"]);
    }
}
