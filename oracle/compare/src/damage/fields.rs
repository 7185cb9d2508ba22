//! Other values for fields of GH and ML, at their limits and past them.

use crate::engine::block::{CONSTANTS, DOUBLES, MATERIAL, PLACES, Record};
use crate::{EDGES, FRACTION, Random, SIGN};

/// A field's place in its record, and a value for it.
pub type Field = (usize, Vec<u8>);

/// A NaN, now and then the one that may stand in a save.
pub fn nan(random: &mut Random) -> [u8; 8] {
    let quiet = 1 << 51;
    let fractions = [
        1,
        quiet,
        quiet,
        quiet | 1,
        FRACTION,
        random.bits() & FRACTION | 1,
    ];
    let sign = if random.once_in(2) { SIGN } else { 0 };
    let bits = sign | 0x7FF << 52 | fractions[random.index(6)];
    bits.to_le_bytes()
}

/// A double at the edges of the format, of either sign.
fn edge(random: &mut Random) -> Vec<u8> {
    let bits = EDGES[random.index(EDGES.len())] | random.bits() & SIGN;
    bits.to_le_bytes().to_vec()
}

/// Another value for a field of GH, and its place.
pub fn head_field(random: &mut Random, record: &Record) -> Field {
    let [n, ..] = record.sizes;
    let axis = random.index(3);
    let (count, side) = (record.material_count, record.sizes[axis] as u16);
    let one_of = |random: &mut Random, values: &[u8]| vec![values[random.index(values.len())]];
    match random.below(11) {
        0 => {
            let sizes = [0, 1, 511, 512, 513, u16::MAX, side - 1, side + 1];
            (2 * axis, sizes[random.index(8)].to_le_bytes().to_vec())
        }
        1 => {
            let sizes = [
                [512, 512, 4],
                [4, 512, 512],
                [512, 512, 5],
                [64, 128, 129],
                [512, 512, 512],
                [1, 1, 512],
                [n as u16, 513, 1],
            ];
            let sizes = sizes[random.index(sizes.len())];
            (0, sizes.into_iter().flat_map(u16::to_le_bytes).collect())
        }
        2 => (6 + random.index(7), one_of(random, &[0, 1, 2, 255])),
        3 => (13, one_of(random, &[0, count - 1, count, count + 1, 255])),
        4 => (14, one_of(random, &[0, 1, 2, 3, 4, 5, 255])),
        5 => (
            15,
            one_of(random, &[0, 1, count - 1, count + 1, 16, 17, 255]),
        ),
        6 => (16, one_of(random, &[0, 1, 2, 3, 4, 255])),
        7 => {
            let corners = [0, 1, side - 1, side, u16::MAX];
            let corner = corners[random.index(5)].to_le_bytes().to_vec();
            (17 + 4 * axis + 2 * random.index(2), corner)
        }
        8 => (DOUBLES[random.index(DOUBLES.len())], edge(random)),
        // GH's last byte; in an old save the first letter of the next mark
        9 => (CONSTANTS, one_of(random, &[0, 1, 2, 3, 128, 255])),
        _ => {
            let steps = [0, 1, u32::MAX, random.bits() as u32][random.index(4)];
            (69, steps.to_le_bytes().to_vec())
        }
    }
}

/// Other values for fields of ML, and their places. A pole more than there may be is a sound one
/// half of the time: then the count alone is at fault. It is of zeros, with which a Debye pole cannot be stepped.
pub fn library_fields(random: &mut Random, record: &Record) -> Vec<Field> {
    let m = random.index(record.materials.len());
    let place = random.index(PLACES);
    let slots = usize::from(record.pole_slots);
    let (entry, pole) = (MATERIAL * m, 25 + 25 * place);
    let counts = [0, 1, slots, slots + 1, 4, 5, 255];
    let tags = [0, 1, 2, 3, 4, 255];
    match random.below(7) {
        0 => vec![(entry + 24, vec![counts[random.index(counts.len())] as u8])],
        1 => {
            let count = record.materials[m].poles.len();
            let tag = vec![1 + random.below(2) as u8];
            let more = vec![(entry + 24, vec![count as u8 + 1])];
            let at = entry + 25 + 25 * count;
            more.into_iter()
                .chain((count < PLACES).then_some((at, tag)))
                .collect()
        }
        2 | 3 => vec![(entry + pole, vec![tags[random.index(tags.len())]])],
        4 => vec![(entry + 8 * random.index(3), edge(random))],
        _ => vec![(entry + pole + 1 + 8 * random.index(3), edge(random))],
    }
}
