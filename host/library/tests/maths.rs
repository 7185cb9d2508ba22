//! The library's own functions: as good as the system's, and used everywhere.

use cichowiej::maths;
use std::fs;
use std::path::{Path, PathBuf};

/// SplitMix64.
struct Random(u64);

impl Random {
    fn next(&mut self) -> u64 {
        self.0 = self.0.wrapping_add(0x9e37_79b9_7f4a_7c15);
        let mut z = self.0;
        z = (z ^ (z >> 30)).wrapping_mul(0xbf58_476d_1ce4_e5b9);
        z = (z ^ (z >> 27)).wrapping_mul(0x94d0_49bb_1331_11eb);
        z ^ (z >> 31)
    }

    /// Any double, or one of the sizes that arguments have.
    fn number(&mut self) -> f64 {
        let any = f64::from_bits(self.next());
        let size = [1e-8, 1e-3, 1.0, 30.0, 700.0, 1e6][(self.next() % 6) as usize];
        let part = (self.next() >> 11) as f64 / (1u64 << 52) as f64 - 1.0;
        if self.next() % 2 == 0 { any } else { part * size }
    }
}

const UNUSUAL: [f64; 22] = [
    0.0,
    -0.0,
    1.0,
    -1.0,
    0.5,
    2.0,
    10.0,
    -3.5,
    1e-300,
    5e-324,
    -5e-324,
    f64::MIN_POSITIVE,
    1e300,
    -1e300,
    f64::MAX,
    f64::MIN,
    f64::EPSILON,
    f64::INFINITY,
    f64::NEG_INFINITY,
    f64::NAN,
    709.782_712_893_384,
    -745.133_219_101_941_1,
];

/// How many doubles lie between the two, one step a unit in the last place; none between two NaNs, all between one and a number.
fn apart(a: f64, b: f64) -> u64 {
    let place = |x: f64| if x.is_sign_negative() { -i128::from(x.to_bits() & !(1 << 63)) } else { i128::from(x.to_bits()) };
    match (a.is_nan(), b.is_nan()) {
        (true, true) => 0,
        (false, false) => u64::try_from((place(a) - place(b)).unsigned_abs()).unwrap(),
        _ => u64::MAX,
    }
}

type Two = fn(f64, f64) -> f64;

/// Each with the system's, and how many units in the last place they may be apart.
const PAIRS: [(&str, Two, Two, u64); 11] = [
    ("exp", |x, _| maths::exp(x), |x, _| x.exp(), 1),
    ("ln", |x, _| maths::ln(x), |x, _| x.ln(), 1),
    ("log10", |x, _| maths::log10(x), |x, _| x.log10(), 2),
    ("powf", maths::powf, f64::powf, 1),
    ("sin", |x, _| maths::sin(x), |x, _| x.sin(), 1),
    ("cos", |x, _| maths::cos(x), |x, _| x.cos(), 1),
    ("sin_cos, sine", |x, _| maths::sin_cos(x).0, |x, _| x.sin(), 1),
    ("sin_cos, cosine", |x, _| maths::sin_cos(x).1, |x, _| x.cos(), 1),
    ("asin", |x, _| maths::asin(x), |x, _| x.asin(), 1),
    ("atan2", maths::atan2, f64::atan2, 1),
    ("hypot", maths::hypot, f64::hypot, 1),
];

/// The largest distance that was met, and where.
fn farthest(own: Two, system: Two, arguments: impl Iterator<Item = (f64, f64)>) -> (u64, f64, f64) {
    arguments.map(|(x, y)| (apart(own(x, y), system(x, y)), x, y)).max_by_key(|(apart, ..)| *apart).unwrap_or((0, 0.0, 0.0))
}

#[test]
fn they_are_as_near_as_the_systems() {
    let count = if cfg!(debug_assertions) { 200_000 } else { 1_000_000 };
    for (name, own, system, bound) in PAIRS {
        let mut random = Random(1);
        let many = std::iter::repeat_with(|| (random.number(), random.number())).take(count);
        let unusual = UNUSUAL.iter().flat_map(|x| UNUSUAL.iter().map(|y| (*x, *y)));
        let (apart, x, y) = farthest(own, system, many.chain(unusual));
        println!("{name}: {apart} at {x:e}, {y:e}");
        assert!(apart <= bound, "{name}: {apart} apart at {x:e}, {y:e}: {:e}, {:e}", own(x, y), system(x, y));
    }
}

/// The sign of a zero is told by `apart` only as the zeros are one place; here it has to be the same.
#[test]
fn zeros_and_ends_are_the_systems() {
    for (name, own, system, _) in PAIRS {
        for (x, y) in UNUSUAL.iter().flat_map(|x| UNUSUAL.iter().map(|y| (*x, *y))) {
            let (own, system) = (own(x, y), system(x, y));
            let special = |z: f64| z == 0.0 || z.is_infinite();
            assert!(
                !(special(own) || special(system)) || own.to_bits() == system.to_bits(),
                "{name} of {x:e}, {y:e}: {own} {system}"
            );
        }
    }
}

/// A whole power by two is a product, and not a function of the system's.
#[test]
fn squares_are_products() {
    let mut random = Random(3);
    for _ in 0..100_000 {
        let x = random.number();
        assert!(apart(x.powi(2), x * x) == 0, "{x:e}");
    }
}

fn sources(folder: &Path) -> Vec<PathBuf> {
    let entries = fs::read_dir(folder).unwrap().map(|entry| entry.unwrap().path());
    entries.flat_map(|path| if path.is_dir() { sources(&path) } else { vec![path] }).collect()
}

/// What the system's library would be called for.
const SYSTEMS: &str = "exp exp2 exp_m1 ln ln_1p log log2 log10 powf sin cos tan sin_cos asin acos atan atan2 sinh cosh tanh asinh acosh atanh hypot cbrt \
                       gamma ln_gamma erf erfc";

/// Read off the source: library and command take none of the system's functions, in whichever way these are written.
#[test]
fn no_function_of_the_systems_is_used() {
    let top = Path::new(env!("CARGO_MANIFEST_DIR")).join("..");
    let files: Vec<PathBuf> = ["library/src", "command/src"].iter().flat_map(|folder| sources(&top.join(folder))).collect();
    assert!(files.len() > 40);
    for file in files.iter().filter(|file| !file.ends_with("maths.rs")) {
        let text = fs::read_to_string(file).unwrap();
        // tests may ask the system
        let text = text.split("#[cfg(test)]").next().unwrap();
        for name in SYSTEMS.split_whitespace() {
            for used in [format!(".{name}("), format!("f64::{name}"), format!("libm::{name}")] {
                let whole =
                    |at: &(usize, &str)| !text[at.0 + used.len()..].starts_with(|c: char| c.is_alphanumeric() || c == '_');
                let found = text.match_indices(&used).filter(|at| used.ends_with('(') || whole(at)).count();
                assert_eq!(found, 0, "{used} in {}", file.display());
            }
        }
    }
}
