//! The constants of vacuum and the Courant numbers against the original's.

#[cfg(not(original))]
#[test]
#[ignore = "skipped: the original's source is not there (PHYZ_EM_SRC names its folder)"]
fn constants_and_courant_numbers() {}

#[cfg(original)]
mod original {
    use compare::engine::*;
    use compare::{Random, agree, report};
    use phyz_em::grid::{EPS0, MU0, YeeGrid};
    use phyz_em_2019::grid as new;

    const SPACINGS: u64 = 200_000;

    fn grid() -> YeeGrid {
        YeeGrid::new_rect(1, 1, 1, 1.0, 1.0, 1.0, 1.0)
    }

    #[test]
    fn constants() {
        let g = grid();
        assert_eq!(cichowiej_eps0().to_bits(), EPS0.to_bits());
        assert_eq!(cichowiej_mu0().to_bits(), MU0.to_bits());
        assert_eq!(cichowiej_eps0().to_bits(), g.eps0.to_bits());
        assert_eq!(cichowiej_mu0().to_bits(), g.mu0.to_bits());
        assert_eq!(cichowiej_c0().to_bits(), g.c0.to_bits());
    }

    /// Those of 2019 as document 02 states them. c0 is stated too: it is not 1/sqrt(eps0 mu0).
    #[test]
    fn constants_of_2019() {
        let g = new::YeeGrid::new_rect(1, 1, 1, 1.0, 1.0, 1.0, 1.0);
        let (eps0, mu0, c0) = (
            cichowiej_eps0_2019(),
            cichowiej_mu0_2019(),
            cichowiej_c0_2019(),
        );
        for (ours, stated, bits, theirs) in [
            (eps0, 8.8541878128e-12, 0x3DA3_7876_F120_6634, new::EPS0),
            (mu0, 1.25663706212e-6, 0x3EB5_1537_0FCB_41E4, new::MU0),
            (c0, 299_792_458.0_f64, 0x41B1_DE78_4A00_0000, g.c0),
            (eps0, g.eps0, new::EPS0.to_bits(), g.eps0),
            (mu0, g.mu0, new::MU0.to_bits(), g.mu0),
        ] {
            let all = [ours, stated, theirs].map(f64::to_bits);
            assert_eq!(all, [bits; 3], "{stated:e}");
        }
        let by_the_root = 1.0 / (eps0 * mu0).sqrt();
        assert_eq!(by_the_root.to_bits(), 0x41B1_DE78_4A00_006D);
    }

    /// Random spacings; the time step is often close to the limit, where the answer turns.
    fn choose(g: &mut YeeGrid, random: &mut Random) {
        (g.dx, g.dy, g.dz) = (random.size(), random.size(), random.size());
        g.c0 = match random.below(4) {
            0 => random.size(),
            1 => cichowiej_c0_2019(),
            _ => cichowiej_c0(),
        };
        let limit = g.max_stable_dt();
        g.dt = match random.below(4) {
            0 => random.size(),
            1 => limit,
            2 => f64::from_bits(
                limit
                    .to_bits()
                    .wrapping_add(random.below(9))
                    .wrapping_sub(4),
            ),
            _ => limit * random.with_field(1020, 1024),
        };
    }

    fn compare_one(g: &YeeGrid) {
        let (c0, dx, dy, dz, dt) = (g.c0, g.dx, g.dy, g.dz, g.dt);
        let number = cichowiej_cfl_number(c0, dx, dy, dz, dt);
        let limit = cichowiej_max_stable_dt(c0, dx, dy, dz, dt);
        let stable = cichowiej_is_stable(c0, dx, dy, dz, dt);
        assert!(
            agree(number, g.cfl_number())
                && agree(limit, g.max_stable_dt())
                && stable == g.is_stable(),
            "c0 {c0:e}, spacings {dx:e} {dy:e} {dz:e}, dt {dt:e}"
        );
    }

    #[test]
    fn courant_numbers() {
        let mut g = grid();
        let mut random = Random::new(1928);
        let mut stable = 0;
        for _ in 0..SPACINGS {
            choose(&mut g, &mut random);
            compare_one(&g);
            stable += u64::from(g.is_stable());
        }
        report(&format!(
            "Courant numbers: {SPACINGS} spacings, {stable} of them stable, none differs"
        ));
        assert!(stable > SPACINGS / 10 && stable < SPACINGS / 10 * 9);
    }
}
