//! Which studies the list has: each with its sizes, what stands in it and which numbers fill it.

use crate::Mix;

/// The wave's region.
#[derive(Clone, Copy)]
pub enum Wave {
    Absent,
    Slab(usize, usize),
    Injector(usize),
    Inside([usize; 6]),
}

/// The absorbing layer: the axes asked for, and its thickness.
#[derive(Clone, Copy)]
pub enum Layer {
    Absent,
    /// The original's own tables.
    Built([bool; 3], usize),
    /// Any numbers.
    Given([bool; 3], usize),
    /// Any numbers, and the axes named as active in the block by hand, however few cells they have.
    Named([bool; 3]),
}

/// What is set on all sides before anything else; afterwards come the periodic axes and the layer.
#[derive(Clone, Copy)]
pub enum Wall {
    Conductor,
    Periodic,
    Lossy,
}

/// What a study is made of. Tags are the poles of its materials, one list to a material: 1 Lorentz,
/// 2 Drude, 3 Debye. Steps are those that the clock has before, and the samples those to come.
#[derive(Clone, Copy)]
pub struct Kind {
    pub sizes: [usize; 3],
    /// 0 the older ones, 1 those of 2019.
    pub constants: usize,
    pub spacings: [f64; 4],
    pub wall: Wall,
    pub periodic: [bool; 3],
    pub layer: Layer,
    pub wave: Wave,
    pub tags: &'static [&'static [u8]],
    pub steps: u32,
    pub samples: usize,
    pub mix: Mix,
}

const NONE: [bool; 3] = [false; 3];
const ALL: [bool; 3] = [true; 3];
const X: [bool; 3] = [true, false, false];
const Y: [bool; 3] = [false, true, false];
const Z: [bool; 3] = [false, false, true];
const XY: [bool; 3] = [true, true, false];
const XZ: [bool; 3] = [true, false, true];
const YZ: [bool; 3] = [false, true, true];

/// Ordinary numbers; an odd one in two hundred, in twenty, in two; mostly zeros of either sign.
const PLAIN: Mix = Mix::ORDINARY;
const FEW: Mix = Mix { odd: 5, zeros: 0 };
const SOME: Mix = Mix { odd: 50, zeros: 0 };
const HALF: Mix = Mix { odd: 500, zeros: 0 };
const ZEROS: Mix = Mix {
    odd: 20,
    zeros: 700,
};

/// Cells of about a millimetre, with a time step below the limit; and sizes far from any such.
const USUAL: [f64; 4] = [1e-3, 1.25e-3, 0.9e-3, 1.7e-12];
const STRANGE: [f64; 4] = [5e-160, 2.5e150, 7e-5, 1e-165];

/// Conducting walls, and nothing else.
const BARE: Kind = Kind {
    sizes: [3, 2, 2],
    constants: 0,
    spacings: USUAL,
    wall: Wall::Conductor,
    periodic: NONE,
    layer: Layer::Absent,
    wave: Wave::Absent,
    tags: &[],
    steps: 0,
    samples: 2,
    mix: PLAIN,
};

/// Everything at once.
const FULL: Kind = Kind {
    sizes: [2, 1, 6],
    periodic: XY,
    layer: Layer::Built(Z, 2),
    wave: Wave::Slab(3, 4),
    tags: &[&[1, 2], &[3]],
    samples: 3,
    ..BARE
};

/// The studies in their order.
pub fn all() -> Vec<Kind> {
    let older = [walls(), layers(), waves(), poles(), together(), long_rows()];
    older.into_iter().flatten().chain(of_2019()).collect()
}

/// The constants of 2019 wherever a step uses one: both half steps, poles, line and corrections, in short rows and
/// long ones.
fn of_2019() -> impl Iterator<Item = Kind> {
    let with_poles = |kind: &Kind| !kind.tags.is_empty();
    let long = long_rows().into_iter().filter(with_poles);
    let short = [vec![BARE], waves(), poles(), together()];
    let kinds = short.into_iter().flatten().chain(long);
    kinds.map(|kind| Kind {
        constants: 1,
        ..kind
    })
}

/// Walls, grids one cell wide, and every mix of numbers.
fn walls() -> Vec<Kind> {
    let with = |sizes, wall, periodic, mix| Kind {
        sizes,
        wall,
        periodic,
        mix,
        ..BARE
    };
    vec![
        BARE,
        with([1, 1, 1], Wall::Conductor, NONE, PLAIN),
        with([1, 1, 8], Wall::Conductor, XY, PLAIN),
        with([1, 8, 1], Wall::Conductor, XZ, SOME),
        with([8, 1, 1], Wall::Conductor, YZ, ZEROS),
        with([2, 2, 2], Wall::Conductor, NONE, HALF),
        with([3, 2, 2], Wall::Periodic, ALL, PLAIN),
        with([4, 1, 2], Wall::Conductor, X, ZEROS),
        with([3, 1, 3], Wall::Lossy, Y, PLAIN),
        Kind {
            spacings: STRANGE,
            steps: u32::MAX - 3,
            samples: 3,
            ..with([2, 2, 2], Wall::Periodic, ALL, PLAIN)
        },
    ]
}

/// The absorbing layer on each axis, of thickness 1 to 3.
fn layers() -> Vec<Kind> {
    let with = |sizes, periodic, layer, mix| Kind {
        sizes,
        periodic,
        layer,
        mix,
        ..BARE
    };
    vec![
        with([4, 1, 2], Y, Layer::Built(X, 1), PLAIN),
        with([2, 6, 1], XZ, Layer::Built(Y, 2), FEW),
        with([2, 1, 8], XY, Layer::Built(Z, 3), PLAIN),
        with([4, 1, 4], Y, Layer::Given(XZ, 1), SOME),
        with([1, 1, 8], XY, Layer::Given(Z, 3), ZEROS),
        with([1, 8, 1], XZ, Layer::Given(Y, 2), FEW),
        with([8, 1, 1], YZ, Layer::Built(X, 3), PLAIN),
        with([2, 2, 2], ALL, Layer::Named(ALL), FEW),
        with([1, 1, 5], XY, Layer::Named(XZ), FEW),
    ]
}

/// The wave's region: slab, injector, box, at the walls and inside.
fn waves() -> Vec<Kind> {
    let with = |sizes, periodic, wave, mix| Kind {
        sizes,
        periodic,
        wave,
        mix,
        ..BARE
    };
    vec![
        with([1, 1, 8], XY, Wave::Slab(2, 5), PLAIN),
        with([2, 2, 2], NONE, Wave::Slab(0, 1), SOME),
        with([1, 1, 8], XY, Wave::Injector(3), FEW),
        with([2, 1, 5], Y, Wave::Injector(0), ZEROS),
        with([3, 2, 2], NONE, Wave::Inside([1, 2, 1, 1, 0, 1]), PLAIN),
        with([2, 2, 2], ALL, Wave::Inside([0, 1, 0, 1, 0, 1]), SOME),
        Kind {
            samples: 3,
            ..with([1, 1, 1], ALL, Wave::Inside([0; 6]), PLAIN)
        },
    ]
}

/// Polarizations with every kind of pole.
fn poles() -> Vec<Kind> {
    let with = |sizes, tags, mix| Kind {
        sizes,
        tags,
        mix,
        periodic: XY,
        ..BARE
    };
    vec![
        with([2, 1, 3], &[&[1]], PLAIN),
        with([3, 2, 1], &[&[2]], FEW),
        with([1, 3, 2], &[&[3]], SOME),
        with([2, 2, 2], &[&[1, 2], &[3], &[]], PLAIN),
        with([1, 1, 6], &[&[1, 2, 3, 1], &[2, 2]], ZEROS),
        with([2, 1, 3], &[&[3, 3, 2, 1], &[1, 3]], HALF),
        with([1, 1, 1], &[&[2, 1, 3]], PLAIN),
    ]
}

fn together() -> Vec<Kind> {
    vec![
        Kind { samples: 1, ..FULL },
        Kind {
            sizes: [1, 1, 8],
            wave: Wave::Injector(2),
            mix: FEW,
            ..FULL
        },
        Kind {
            sizes: [1, 1, 8],
            layer: Layer::Given(Z, 3),
            mix: SOME,
            ..FULL
        },
        Kind {
            sizes: [4, 2, 4],
            periodic: Y,
            layer: Layer::Given(XZ, 1),
            wave: Wave::Inside([1, 2, 0, 1, 1, 2]),
            tags: &[&[1, 2, 3, 2]],
            samples: 2,
            ..FULL
        },
        Kind {
            sizes: [1, 4, 4],
            periodic: X,
            layer: Layer::Given(YZ, 1),
            wave: Wave::Slab(1, 3),
            mix: ZEROS,
            samples: 2,
            ..FULL
        },
        Kind {
            sizes: [2, 1, 3],
            wall: Wall::Lossy,
            layer: Layer::Absent,
            wave: Wave::Slab(1, 2),
            ..FULL
        },
    ]
}

/// Rows of 16 cells and more, which the engine takes in passes: along x, along y and along z.
fn long_rows() -> Vec<Kind> {
    let x = Row {
        thin: [18, 1, 1],
        wide: [16, 2, 2],
        along: X,
        across: YZ,
        wave: Wave::Inside([3, 15, 0, 0, 0, 0]),
    };
    let y = Row {
        thin: [1, 18, 1],
        wide: [1, 18, 2],
        along: Y,
        across: XZ,
        wave: Wave::Slab(0, 0),
    };
    let z = Row {
        thin: [1, 1, 18],
        wide: [1, 1, 17],
        along: Z,
        across: XY,
        wave: Wave::Slab(5, 12),
    };
    [x, y, z].into_iter().flat_map(Row::studies).collect()
}

/// The axis that rows lie along and the other two, a grid of one row and one of more where there can be
/// more, and a region in the row.
struct Row {
    thin: [usize; 3],
    wide: [usize; 3],
    along: [bool; 3],
    across: [bool; 3],
    wave: Wave,
}

impl Row {
    /// With walls at the row's ends and without, with the layer along the row and across it, with poles, and
    /// with a wave.
    fn studies(self) -> Vec<Kind> {
        let with = |sizes, periodic, layer, mix| Kind {
            sizes,
            periodic,
            layer,
            mix,
            ..BARE
        };
        let thin = |layer, mix| with(self.thin, self.across, layer, mix);
        let built = Layer::Built(self.along, 3);
        vec![
            with(self.wide, self.across, Layer::Absent, PLAIN),
            with(self.wide, self.along, Layer::Absent, FEW),
            with(self.wide, ALL, Layer::Named(ALL), PLAIN),
            with(self.thin, ALL, Layer::Named(self.across), SOME),
            thin(built, PLAIN),
            thin(Layer::Given(self.along, 5), ZEROS),
            Kind {
                tags: &[&[1, 2], &[3]],
                ..thin(Layer::Absent, PLAIN)
            },
            Kind {
                tags: &[&[3]],
                wave: self.wave,
                samples: 3,
                ..thin(built, PLAIN)
            },
        ]
    }
}
