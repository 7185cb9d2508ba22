//! Two numbers that tell one set of constants from the other, each by a study run.

use compare::engine::{Study, cichowiej_mu0, cichowiej_mu0_2019};

const NZ: usize = 4;
/// Cells of the line: those along z, and 48 more.
const LINE: usize = NZ + 48;
const DZ: f64 = 1e-3;
const DT: f64 = 1e-12;

/// The factor of the line's ends. On a line of zeros with -1 at one end, an end becomes the factor times
/// what the cell next to it then has, plus 1. That cell stays 0 where the magnetic field between the two is
/// 0 after its half step, and so it begins with what that half step takes away.
fn end_factors(constants: usize, mu0: f64) -> [u64; 2] {
    [(0, 0, 1.0), (LINE - 1, LINE - 2, -1.0)].map(|(end, between, sign)| {
        let mut study = Study::lent([1, 1, NZ], 0);
        let spacings = [1.0, 1.0, DZ, DT];
        assert_eq!(study.open([1, 1, NZ], 0, constants, spacings), 0);
        assert_eq!(study.injector_z(0), 0);
        study.aux[end] = -1.0;
        study.aux[LINE + between] = sign * (DT / (mu0 * DZ));
        assert_eq!(study.step(0.0), 0);
        let next = if end == 0 { 1 } else { end - 1 };
        assert_eq!(study.aux[next], 0.0);
        assert_eq!(study.aux[LINE + between], 0.0);
        study.aux[end].to_bits()
    })
}

/// (c0 dt - dz)/(c0 dt + dz). With 1/sqrt(eps0 mu0) in the place of the stated c0 it would end in 300.
#[test]
fn the_lines_ends() {
    let [old, new] = [0xBFE1_3D16_DC20_DDCF, 0xBFE1_3D16_DC22_9345];
    assert_eq!(end_factors(0, cichowiej_mu0()), [old; 2]);
    assert_eq!(end_factors(1, cichowiej_mu0_2019()), [new; 2]);
}

/// Half of eps0: 1 V/m in one cell of a cubic metre.
#[test]
fn the_energy_of_a_unit_cell() {
    let energies = [0, 1].map(|constants| {
        let mut study = Study::lent([1, 1, 1], 0);
        assert_eq!(study.open([1, 1, 1], 0, constants, [1.0; 4]), 0);
        study.e[0] = 1.0;
        let mut energy = [0.0];
        assert_eq!(study.total_energy(&mut energy), 0);
        energy[0].to_bits()
    });
    assert_eq!(energies, [0x3D93_7876_F148_112E, 0x3D93_7876_F120_6634]);
}
