//! The engine's root against the processor's square root.

use compare::engine::cichowiej_root;
use compare::{EDGES, FRACTION, Random, SIGN, agree, report};

/// Counts the doubles that were tried, and stops at the first whose roots differ.
struct Trial {
    tried: u64,
    random: Random,
}

impl Trial {
    fn one(&mut self, bits: u64) {
        let x = f64::from_bits(bits);
        let (ours, theirs) = (cichowiej_root(x), x.sqrt());
        assert!(
            agree(ours, theirs),
            "root of {bits:016X}: {:016X} in place of {:016X}",
            ours.to_bits(),
            theirs.to_bits()
        );
        self.tried += 1;
    }

    fn both_signs(&mut self, bits: u64) {
        self.one(bits);
        self.one(bits ^ SIGN);
    }

    /// A double and those up to `far` places before and after it.
    fn around(&mut self, bits: u64, far: u64) {
        for step in 0..=2 * far {
            self.one(bits.wrapping_add(step).wrapping_sub(far));
        }
    }

    fn edges(&mut self) {
        for bits in EDGES {
            self.around(bits, 3);
            self.around(bits ^ SIGN, 3);
        }
    }

    /// Every exponent with the ends and the middle of the fractions, and with random ones.
    fn every_exponent(&mut self, each: u64) {
        for field in 0..2048 {
            for fraction in [0, 1, 2, 1 << 51, (1 << 51) - 1, FRACTION - 1, FRACTION] {
                self.both_signs(field << 52 | fraction);
            }
            for _ in 0..each {
                let fraction = self.random.bits() & FRACTION;
                self.one(field << 52 | fraction);
            }
        }
    }

    /// Subnormals with every number of digits, and the smallest of them all.
    fn subnormals(&mut self, each: u64, smallest: u64) {
        for digits in 0..52 {
            let lead = 1 << digits;
            for _ in 0..each {
                let low = self.random.bits() & (lead - 1);
                self.one(lead | low);
            }
        }
        for bits in 0..smallest {
            self.one(bits);
        }
    }

    /// A power of four that keeps what it multiplies among the normal numbers.
    fn scale(&mut self) -> f64 {
        let half = self.random.below(800) as i32 - 400;
        2f64.powi(2 * half)
    }

    /// Squares that a double holds exactly, and their neighbours: the root is exact or next to it.
    fn perfect_squares(&mut self, count: u64) {
        for _ in 0..count {
            let m = self.random.bits() >> 38;
            let x = (m * m) as f64 * self.scale();
            self.around(x.to_bits(), 3);
        }
    }

    /// Squares of any doubles, rounded, and their neighbours.
    fn rounded_squares(&mut self, count: u64) {
        for _ in 0..count {
            let y = self.random.with_field(600, 1500);
            self.around((y * y).to_bits(), 3);
        }
    }

    /// Doubles whose root lies next to a midpoint, on either side.
    fn near_midpoints(&mut self, far: i64) {
        for c in (-far..far).step_by(2) {
            let scaled = near_midpoint(c) * self.scale();
            self.one(scaled.to_bits());
        }
    }

    fn whole_numbers(&mut self, count: u64) {
        for n in 0..count {
            self.one((n as f64).to_bits());
        }
    }

    fn random_bits(&mut self, count: u64) {
        for _ in 0..count {
            let bits = self.random.bits();
            self.one(bits);
        }
    }
}

/// m² + m - c for a whole m of 53 digits that makes it a multiple of 2^53, so that a double holds it.
/// Its root is m + 1/2 less (c + 1/4) / 2m: for a small c next to nothing. c is even.
///
/// Newton's steps find m modulo 2^64, since the slope 2m + 1 is odd; -1 - m serves as well as m, and
/// one of the two has 53 digits.
fn near_midpoint(c: i64) -> f64 {
    let mut m = 0u64;
    for _ in 0..6 {
        let excess = m.wrapping_mul(m).wrapping_add(m).wrapping_sub(c as u64);
        let slope = m.wrapping_mul(2).wrapping_add(1);
        m = m.wrapping_sub(excess.wrapping_mul(inverse(slope)));
    }
    let low = m % (1 << 53);
    let m = i128::from(low.max((1 << 53) - 1 - low));
    let x = m * m + m - i128::from(c);
    assert_eq!(x % (1 << 53), 0);
    x as f64
}

/// The inverse of an odd number modulo 2^64, by Newton's steps: each doubles the digits that are right.
fn inverse(odd: u64) -> u64 {
    let mut inverse = odd;
    for _ in 0..5 {
        inverse = inverse.wrapping_mul(2u64.wrapping_sub(odd.wrapping_mul(inverse)));
    }
    inverse
}

#[test]
fn root_is_the_processors() {
    let mut trial = Trial {
        tried: 0,
        random: Random::new(1985),
    };
    trial.edges();
    trial.every_exponent(1_200);
    trial.subnormals(20_000, 1_000_000);
    trial.perfect_squares(200_000);
    trial.rounded_squares(200_000);
    trial.near_midpoints(1_000_000);
    trial.whole_numbers(1_000_000);
    trial.random_bits(2_000_000);
    report(&format!(
        "root: {} doubles tried, none differs",
        trial.tried
    ));
    assert!(trial.tried >= 10_000_000);
}
