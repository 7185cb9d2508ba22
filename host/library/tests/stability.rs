//! The limit of the Courant number, tried: a little above it the field grows without end. A little below it the field stays; what the incident wave leaves in the
//! last cell before a wall, where nothing else moves the magnetic field, drives the electric field there in proportion to time, and its energy to the square.

use cichowiej::{CellBox, Constants, Grid, Material, Pole, Put, Study};

/// Cells, which axes are periodic, and the limit for cubic cells, by hand where it is simple.
const CASES: [([usize; 3], [bool; 3], Option<f64>); 9] = [
    ([1, 1, 40], [true, true, false], Some(1.732_050_807_568_877_2)),
    ([1, 1, 40], [true, true, true], Some(1.732_050_807_568_877_2)),
    ([8, 1, 8], [true, true, true], Some(1.224_744_871_391_589)),
    ([4, 4, 4], [true, true, true], Some(1.0)),
    ([2, 6, 8], [false, true, true], Some(1.224_744_871_391_589)),
    ([5, 3, 8], [true, true, true], None),
    ([6, 5, 7], [false, false, false], None),
    ([3, 1, 9], [false, true, false], None),
    ([12, 12, 12], [false, false, false], None),
];

/// Of the grid, and of the incident wave in it.
fn known_limit(grid: &Grid, periodic: [bool; 3]) -> f64 {
    grid.courant_limit(periodic).min(grid.line_limit())
}

/// The field's energy after so many steps without a source, behind a wave with every frequency in it.
fn left(cells: [usize; 3], periodic: [bool; 3], pitch: [f64; 3], part: f64, steps: usize) -> f64 {
    let constants = Constants::Old;
    let mut grid = Grid { cells, pitch, dt: constants.largest_dt(pitch), pole_slots: 0, constants };
    grid.dt *= part * known_limit(&grid, periodic);
    let mut study = Study::open(&grid).unwrap();
    study.set_periodic(periodic).unwrap();
    // a cell that is a little denser sends the wave along every axis
    let [x, y, z] = cells.map(|n| ((n - 1) / 2, (n - 1) / 2 + 1));
    study.put_box(CellBox { x, y, z }, Put::Numbers { eps_r: 1.01, mu_r: 1.0, sigma: 0.0 }).unwrap();
    study.injector_z(cells[2] / 3).unwrap();
    assert!((study.courant_limit() * part / grid.courant_number() - 1.0).abs() < 1e-9);
    study.run(&[1.0, -1.0, 1.0, 0.5, -0.3, 0.7]).unwrap();
    study.run(&vec![0.0; steps]).unwrap();
    study.total_energy().unwrap()
}

#[test]
fn the_limit_is_where_the_field_begins_to_grow() {
    for (cells, periodic, _) in CASES {
        for pitch in [[1e-3; 3], [1e-3, 1.7e-3, 0.8e-3]] {
            let [early, late] = [400, 4000].map(|steps| left(cells, periodic, pitch, 0.99, steps));
            assert!(early > 0.0 && late < 300.0 * early, "{cells:?} {periodic:?} {pitch:?}: {early:e}, {late:e}");
            let above = left(cells, periodic, pitch, 1.02, 4000);
            assert!(above.is_nan() || above > 1e30 * early, "{cells:?} {periodic:?} {pitch:?}: {early:e}, {above:e}");
        }
    }
}

#[test]
fn cubic_cells_have_the_limits_that_are_known() {
    for (cells, periodic, limit) in CASES {
        let grid = Grid { cells, pitch: [1e-3; 3], dt: 1e-12, pole_slots: 0, constants: Constants::Old };
        let found = known_limit(&grid, periodic);
        assert!(limit.is_none_or(|limit| (found / limit - 1.0).abs() < 1e-12) && found >= 1.0, "{cells:?}: {found}");
    }
}

/// Without a wave nothing can differ on one cell.
#[test]
fn a_single_cell_has_no_limit() {
    let grid = Grid { cells: [1, 1, 1], pitch: [1e-3; 3], dt: 1e-12, pole_slots: 0, constants: Constants::Old };
    assert!([[true; 3], [false; 3]].iter().all(|periodic| grid.courant_limit(*periodic) == f64::INFINITY));
    assert!((grid.line_limit() - 3f64.sqrt()).abs() < 1e-12);
}

/// One cell between walls along x: the incident wave alone moves anything, at any step up to that of its own line.
#[test]
fn nothing_runs_beside_a_cell_between_walls() {
    let pitch = [1e-3; 3];
    let energy = |steps: usize| left([1, 6, 20], [false, true, false], pitch, 0.999, steps);
    assert!(energy(4000) < 300.0 * energy(400));
}

/// Materials with poles, one to fill a grid with.
fn materials() -> Vec<Material> {
    let with = |eps_inf: f64, poles: &[Pole]| Material { eps_inf, sigma: 0.0, mu_r: 1.0, poles: poles.to_vec() };
    let debye = |delta_eps, tau| Pole::Debye { delta_eps, tau };
    let lorentz = |delta_eps, omega0, gamma| Pole::Lorentz { delta_eps, omega0, gamma };
    let drude = |omega_p, gamma| Pole::Drude { omega_p, gamma };
    vec![
        with(1.0, &[debye(2.0, 4e-12)]),
        with(5.0, &[debye(75.0, 9e-12)]),
        with(1.0, &[lorentz(2.0, 2e11, 1e10)]),
        with(1.0, &[lorentz(3.0, 8e11, 1e9)]),
        with(1.0, &[drude(4e11, 1e9)]),
        Material { mu_r: 0.5, ..with(1.5, &[debye(1.0, 20e-12), drude(3e11, 5e10)]) },
        Material { mu_r: 0.5, ..with(1.0, &[]) },
        Material { sigma: 0.3, ..with(1.0, &[debye(2.0, 4e-12)]) },
    ]
}

/// A line of one material, and whether its steps lie above its limit.
fn filled(material: &Material, dt: f64) -> (Study, bool) {
    let constants = Constants::Old;
    let grid = Grid { cells: [1, 1, 60], pitch: [1e-3; 3], dt, pole_slots: 4, constants };
    let mut study = Study::open(&grid).unwrap();
    study.set_periodic([true, true, true]).unwrap();
    let id = study.add_material(material).unwrap();
    study.put_box(CellBox::planes(0, 60), Put::Library(id)).unwrap();
    study.build_dispersion().unwrap();
    assert_eq!(study.material(id).as_ref(), Some(material));
    study.injector_z(20).unwrap();
    (study.clone(), grid.courant_number() > study.courant_limit())
}

/// The largest time step that is below the limit, by halving.
fn largest_dt(material: &Material) -> f64 {
    let (mut low, mut high) = (0.0, 2.0 * Constants::Old.largest_dt([1e-3; 3]));
    for _ in 0..60 {
        let middle = 0.5 * (low + high);
        if filled(material, middle).1 { high = middle } else { low = middle }
    }
    low
}

#[test]
fn poles_lower_the_limit_to_where_the_field_begins_to_grow() {
    for material in materials() {
        let dt = largest_dt(&material);
        let left = |part: f64, steps: usize| {
            let mut study = filled(&material, part * dt).0;
            study.run(&[1.0, -1.0, 1.0, 0.5, -0.3, 0.7]).unwrap();
            study.run(&vec![0.0; steps]).unwrap();
            study.total_energy().unwrap()
        };
        let (early, late, above) = (left(0.98, 400), left(0.98, 6000), left(1.02, 6000));
        assert!(early > 0.0 && late < 300.0 * early, "{material:?}, {dt:e} s: {early:e}, {late:e}");
        assert!(above.is_nan() || above > 1e20 * early, "{material:?}, {dt:e} s: {early:e}, {above:e}");
    }
}
