//! The cells of a grid, and how far one is from another by document 02's words for S-13.

use compare::engine::block::Record;

pub type Cell = [usize; 3];

pub const AXES: [&str; 3] = ["x", "y", "z"];
/// The tables of an axis.
pub const TABLES: [&str; 6] = ["kinv_e", "b_e", "c_e", "kinv_h", "b_h", "c_h"];

/// What the distance goes by.
#[derive(Debug, Clone, Copy)]
pub struct Grid {
    pub sizes: [usize; 3],
    pub periodic: [bool; 3],
}

/// On an axis of so many cells.
fn along(a: usize, b: usize, count: usize, periodic: bool) -> usize {
    let straight = a.abs_diff(b);
    match periodic {
        true => straight.min(count - straight),
        false => straight,
    }
}

impl Grid {
    pub fn of(record: &Record) -> Self {
        let (sizes, periodic) = (record.sizes, record.periodic);
        Self { sizes, periodic }
    }

    /// The same cells without going round.
    pub fn straight(self) -> Self {
        let periodic = [false; 3];
        Self { periodic, ..self }
    }

    /// In the order of the stores.
    pub fn cells(self) -> impl Iterator<Item = Cell> {
        let [nx, ny, nz] = self.sizes;
        let plane = move |k| (0..ny).flat_map(move |j| (0..nx).map(move |i| [i, j, k]));
        (0..nz).flat_map(plane)
    }

    pub fn at(&self, [i, j, k]: Cell) -> usize {
        let [nx, ny, _] = self.sizes;
        i + j * nx + k * nx * ny
    }

    /// Where the layer's tables of an axis, six of them, have the number for the plane of a cell.
    pub fn in_tables(&self, cell: Cell, axis: usize, which: usize) -> usize {
        let before: usize = self.sizes[..axis].iter().sum();
        6 * before + which * self.sizes[axis] + cell[axis]
    }

    /// The largest difference of index over the axes, going round on a periodic one.
    pub fn distance(&self, a: Cell, b: Cell) -> usize {
        let one = |axis: usize| along(a[axis], b[axis], self.sizes[axis], self.periodic[axis]);
        (0..3).map(one).max().unwrap()
    }

    /// The cells that are farther than n from one.
    pub fn beyond(self, cell: Cell, n: usize) -> impl Iterator<Item = Cell> {
        let farther = move |other: &Cell| self.distance(cell, *other) > n;
        self.cells().filter(farther)
    }
}

#[test]
fn worked_distances_on_one_axis() {
    let worked = [
        (10, false, 2, 7, 5),
        (10, false, 0, 9, 9),
        (7, false, 6, 0, 6),
        (10, true, 0, 9, 1),
        (10, true, 8, 1, 3),
        (10, true, 2, 7, 5),
        (10, true, 2, 6, 4),
        (10, true, 2, 8, 4),
        (7, true, 0, 6, 1),
        (7, true, 0, 3, 3),
        (7, true, 0, 4, 3),
        (7, true, 5, 1, 3),
        (2, true, 0, 1, 1),
        (2, false, 0, 1, 1),
        (3, true, 0, 2, 1),
        (3, false, 0, 2, 2),
        (1, true, 0, 0, 0),
        (1, false, 0, 0, 0),
    ];
    for (count, periodic, a, b, expected) in worked {
        for axis in 0..3 {
            let (mut sizes, mut flags) = ([4; 3], [!periodic; 3]);
            (sizes[axis], flags[axis]) = (count, periodic);
            let periodic = flags;
            let grid = Grid { sizes, periodic };
            let place = |x: usize| [0, 1, 2].map(|other| if other == axis { x } else { 3 });
            let both = [(a, b), (b, a)].map(|(a, b)| grid.distance(place(a), place(b)));
            assert_eq!(
                both, [expected; 2],
                "{a} and {b} on axis {axis} of {grid:?}"
            );
        }
    }
}

/// Of 10, 7 and 5 cells with x and z periodic.
#[test]
fn worked_distances_on_three_axes() {
    let grid = Grid {
        sizes: [10, 7, 5],
        periodic: [true, false, true],
    };
    let worked = [
        ([3, 3, 3], [3, 3, 3], 0),
        ([3, 3, 3], [4, 2, 4], 1),
        ([0, 0, 0], [9, 4, 2], 4),
        ([0, 6, 0], [5, 0, 4], 6),
        ([9, 1, 4], [0, 1, 0], 1),
        ([1, 2, 0], [8, 2, 3], 3),
        ([0, 0, 0], [9, 0, 4], 1),
        ([0, 0, 0], [9, 6, 4], 6),
        ([4, 3, 2], [9, 3, 4], 5),
    ];
    for (a, b, expected) in worked {
        let both = [grid.distance(a, b), grid.distance(b, a)];
        assert_eq!(both, [expected; 2], "{a:?} and {b:?}");
    }
    let within = grid.cells().count() - grid.beyond([0, 0, 0], 1).count();
    assert_eq!(within, 3 * 2 * 3, "cells within 1 of the first");
}
