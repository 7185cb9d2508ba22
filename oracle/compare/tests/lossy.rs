//! The lossy edge's conductivity against the original's: the power by halving against `powi`, the
//! choice by `>` against `f64::max`. Where they part is listed in docs/DIFFERENCES.md.

use compare::engine::{Put, Study, cichowiej_powi, cichowiej_stronger, cichowiej_wall_sigma};

/// The thickest layer is half of 512 cells.
const THICKEST: usize = 256;

#[test]
fn a_power_of_order_0_is_1_and_of_order_1_the_number_itself() {
    for x in [0.0, -0.0, 0.25, 1.0, f64::INFINITY, f64::MIN_POSITIVE] {
        assert_eq!(cichowiej_powi(x, 0), 1.0);
        assert_eq!(cichowiej_powi(x, 1).to_bits(), x.to_bits());
    }
}

#[test]
fn beyond_the_layer_there_is_none() {
    for t in [0, 1, 5, THICKEST] {
        for d in t..t + 3 {
            assert_eq!(cichowiej_wall_sigma(t, 3, 8.0, d).to_bits(), 0);
        }
    }
}

#[test]
fn only_a_larger_wall_replaces() {
    for v in [f64::NAN, -0.0, -1.0, f64::NEG_INFINITY] {
        assert_eq!(cichowiej_stronger(0.0, v).to_bits(), 0);
    }
    assert_eq!(cichowiej_stronger(1.0, 2.0), 2.0);
    assert_eq!(cichowiej_stronger(1.0, f64::INFINITY), f64::INFINITY);
}

/// The conductivities that the call leaves on a line of n cells, each of which had 7 before.
fn line(n: usize, thickness: usize, order: usize, sigma_max: f64) -> Vec<f64> {
    let mut study = Study::lent([n, 1, 1], 0);
    assert_eq!(study.open([n, 1, 1], 0, 0, [1.0; 4]), 0);
    let what = Put::Numbers([1.0, 1.0, 7.0]);
    assert_eq!(study.put_box([0, n, 0, 1, 0, 1], what, &mut []), 0);
    assert_eq!(study.set_boundary_lossy(thickness, order, sigma_max), 0);
    study.media[2 * n..].to_vec()
}

/// Document 01's samples; and order 7, which the random studies leave out, by document 01's rule.
#[test]
fn lines_of_cells() {
    assert_eq!(line(4, 9, 1, 8.0), [8.0, 4.0, 4.0, 8.0]);
    assert_eq!(line(5, 2, 2, 8.0), [8.0, 2.0, 0.0, 2.0, 8.0]);
    assert_eq!(line(1, 9, 1, 8.0), [7.0]);
    let seventh = |u: f64| u * ((u * u) * ((u * u) * (u * u)));
    for t in 1..=THICKEST {
        for (i, sigma) in line(2 * t, t, 7, 3.0).into_iter().enumerate() {
            let from_wall = i.min(2 * t - 1 - i);
            let expected = 3.0 * seventh((t - from_wall) as f64 / t as f64);
            assert_eq!(
                sigma.to_bits(),
                expected.to_bits(),
                "{t} cells thick, at {i}"
            );
        }
    }
}

#[cfg(not(original))]
#[test]
#[ignore = "skipped: the original's source is not there (PHYZ_EM_SRC names its folder)"]
fn profiles() {}

#[cfg(original)]
mod original {
    use super::*;
    use compare::{EDGES, SIGN, agree, report};
    use phyz_em::boundary::AbsorberLayer;

    const ORDERS: usize = 8;

    /// The product of the squares that the exponent's bits name, the lowest bit first.
    fn by_squares(mut u: f64, mut n: usize) -> f64 {
        let mut product = if n & 1 == 1 { u } else { 1.0 };
        n >>= 1;
        while n != 0 {
            u *= u;
            if n & 1 == 1 {
                product *= u;
            }
            n >>= 1;
        }
        product
    }

    /// Every ratio that a layer can have. The original's `powi` groups x^7 as (x x^2) x^4 and the
    /// rule of document 01 as x (x^2 x^4): of the orders up to 8 that one alone can part.
    #[test]
    fn profiles() {
        for order in 0..=ORDERS {
            let (mut ratios, mut apart, mut furthest, mut first) = (0u32, 0u32, 0u64, None);
            for t in 1..=THICKEST {
                let layer = AbsorberLayer::new(t, order, 1.0);
                for d in 0..t {
                    let ours = cichowiej_wall_sigma(t, order, 1.0, d);
                    let theirs = layer.get_sigma(d);
                    assert!(agree(theirs, by_squares((t - d) as f64 / t as f64, order)));
                    ratios += 1;
                    if !agree(ours, theirs) {
                        apart += 1;
                        furthest = furthest.max(ours.to_bits().abs_diff(theirs.to_bits()));
                        first.get_or_insert((t, d));
                    }
                }
            }
            report(&format!(
                "lossy profile, order {order}: {apart} of {ratios} ratios apart from powi, by {furthest} units in the last place at most, first (thickness, distance) {first:?}"
            ));
            assert!(apart == 0 || (order == 7 && furthest <= 2));
        }
    }

    /// `f64::max` from +0.0 on at the edges of the format: -0.0 is the one that may part.
    #[test]
    fn strongest() {
        for bits in EDGES.into_iter().flat_map(|b| [b, b | SIGN]) {
            let v = f64::from_bits(bits);
            for s in [0.0, 1.0, f64::INFINITY] {
                let (ours, theirs) = (cichowiej_stronger(s, v), s.max(v));
                if !agree(ours, theirs) {
                    report(&format!(
                        "strongest: {s:e} and {v:e} give {ours:e} here, {theirs:e} there"
                    ));
                    assert!(s == 0.0 && bits == SIGN);
                }
            }
        }
    }
}
