//! A study's block and stores at the lengths that document 01 gives them.

use crate::bindings::Lent;

/// The block's length in bytes, and a material's.
pub const BLOCK_LENGTH: usize = 2074;
pub const MATERIAL_LENGTH: usize = 125;

/// A block has so many places for materials, behind the rest.
pub const MOST_MATERIALS: usize = 16;

pub const MAX_SIDE: usize = 512;
pub const MAX_CELLS: usize = 1_048_576;
pub const MAX_POLE_SLOTS: usize = 4;

/// The places of the auxiliary line below the first plane, and above the last.
pub const LINE_PAD: usize = 24;

pub fn sizes_fit(sizes: [usize; 3]) -> bool {
    sizes.iter().all(|n| (1..=MAX_SIDE).contains(n)) && sizes.iter().product::<usize>() <= MAX_CELLS
}

/// The bytes that a study of these sizes takes: its block, and its stores of doubles and of materials' numbers.
pub fn bytes(sizes: [usize; 3], pole_slots: usize) -> u64 {
    let [cells, line] = [sizes.map(|n| n as u64).iter().product::<u64>(), sizes.map(|n| n as u64).iter().sum()];
    let doubles = (24 + 6 * pole_slots as u64) * cells + 6 * line + 2 * (sizes[2] + 2 * LINE_PAD) as u64;
    BLOCK_LENGTH as u64 + size_of::<f64>() as u64 * doubles + size_of::<u32>() as u64 * cells
}

/// What a study of these sizes is opened on. For sizes that no study has it is made for one cell: the engine turns the sizes down before it looks at a store.
pub fn lent(sizes: [usize; 3], pole_slots: usize) -> Lent {
    let block = vec![0; BLOCK_LENGTH];
    if sizes_fit(sizes) && pole_slots <= MAX_POLE_SLOTS {
        Lent::with_lengths(block, sizes, pole_slots, 0.0, 0)
    } else {
        Lent::with_lengths(block, [1; 3], 0, 0.0, 0)
    }
}

#[cfg(test)]
mod tests {
    use super::*;

    #[test]
    fn bytes_are_those_of_the_stores() {
        for (sizes, slots) in [([1, 1, 1], 0), ([2, 3, 4], 2), ([7, 1, 90], 4)] {
            let lent = lent(sizes, slots);
            let doubles = [&lent.e, &lent.h, &lent.media, &lent.psi_e, &lent.psi_h, &lent.tables, &lent.poles, &lent.aux];
            let doubles: usize = doubles.iter().map(|store| size_of_val(store.as_slice())).sum();
            assert_eq!(bytes(sizes, slots), (lent.block.len() + doubles + size_of_val(lent.ids.as_slice())) as u64);
        }
    }
}
