//! Random numbers, and the edges of the format of doubles.

/// The bits of a double's fraction, and of its sign.
pub const FRACTION: u64 = (1 << 52) - 1;
pub const SIGN: u64 = 1 << 63;

/// The bits of the infinity, and the first of a NaN's fraction, which a quiet one has.
const INFINITY: u64 = 0x7FF << 52;
const QUIET: u64 = 1 << 51;

/// Doubles at the edges of the format, as bits: zero, the subnormals' ends, the smallest normal
/// number, 1, the largest number, the infinity and NaNs.
pub const EDGES: [u64; 10] = [
    0,
    1,
    FRACTION,
    1 << 52,
    0x3FF0_0000_0000_0000,
    0x7FEF_FFFF_FFFF_FFFF,
    0x7FF0_0000_0000_0000,
    0x7FF0_0000_0000_0001,
    0x7FF8_0000_0000_0000,
    0x7FFF_FFFF_FFFF_FFFF,
];

/// Random numbers from a fixed seed (SplitMix64: Steele, Lea and Flood 2014).
pub struct Random(u64);

impl Random {
    pub fn new(seed: u64) -> Self {
        Self(seed)
    }

    pub fn bits(&mut self) -> u64 {
        self.0 = self.0.wrapping_add(0x9E37_79B9_7F4A_7C15);
        let z = (self.0 ^ (self.0 >> 30)).wrapping_mul(0xBF58_476D_1CE4_E5B9);
        let z = (z ^ (z >> 27)).wrapping_mul(0x94D0_49BB_1331_11EB);
        z ^ (z >> 31)
    }

    pub fn below(&mut self, n: u64) -> u64 {
        self.bits() % n
    }

    /// A positive double with one of the exponent fields from `low` to `high`.
    pub fn with_field(&mut self, low: u64, high: u64) -> f64 {
        let field = low + self.below(high - low + 1);
        f64::from_bits(field << 52 | (self.bits() & FRACTION))
    }

    /// An ordinary size, or now and then one of the odd ones.
    pub fn size(&mut self) -> f64 {
        match self.below(16) {
            0 => self.with_field(0, 0),
            1 => self.with_field(1, 600),
            2 => self.with_field(1500, 2046),
            3 => f64::from_bits(EDGES[self.below(EDGES.len() as u64) as usize]),
            4 => -self.with_field(0, 2046),
            5 => f64::from_bits(self.bits()),
            _ => self.with_field(980, 1040),
        }
    }

    /// One of a number of things.
    pub fn index(&mut self, n: usize) -> usize {
        self.below(n as u64) as usize
    }

    /// True once in `n` times.
    pub fn once_in(&mut self, n: u64) -> bool {
        self.below(n) == 0
    }

    /// A number from -1 to 1 that is neither zero nor close to it.
    pub fn unit(&mut self) -> f64 {
        let x = self.with_field(1015, 1022);
        if self.once_in(2) { x } else { -x }
    }

    /// A double with something odd about it: a zero of either sign, NaN, an infinity, a subnormal,
    /// a huge or a tiny number, or any bits at all.
    pub fn odd(&mut self) -> f64 {
        let x = match self.below(8) {
            0 | 1 => f64::from_bits(EDGES[self.index(EDGES.len())]),
            2 => 0.0,
            3 => self.with_field(0, 0),
            4 => self.with_field(1, 100),
            5 => self.with_field(1900, 2046),
            6 => f64::from_bits(self.bits()),
            _ => [self.nan(), f64::INFINITY][self.index(2)],
        };
        if self.once_in(2) { x } else { -x }
    }

    /// The NaN that is written, or any other one, quiet or signalling, with the sign or without.
    pub fn nan(&mut self) -> f64 {
        let fraction = match self.below(3) {
            0 => QUIET,
            1 => QUIET + self.below(QUIET),
            _ => 1 + self.below(QUIET - 1),
        };
        let sign = [0, SIGN][self.index(2)];
        f64::from_bits(sign | INFINITY | fraction)
    }

    /// An odd number or a zero, as often as the mix has it.
    fn special(&mut self, mix: Mix) -> Option<f64> {
        let n = self.below(1000);
        if n < mix.odd {
            return Some(self.odd());
        }
        let zero = if self.once_in(2) { 0.0 } else { -0.0 };
        (n < mix.odd + mix.zeros).then_some(zero)
    }

    /// A number of this size and either sign, or a special one.
    pub fn number(&mut self, size: f64, mix: Mix) -> f64 {
        self.special(mix).unwrap_or_else(|| size * self.unit())
    }

    /// Above zero and up to `size`, or a special one.
    pub fn above_zero(&mut self, size: f64, mix: Mix) -> f64 {
        let special = self.special(mix);
        special.unwrap_or_else(|| size * self.unit().abs())
    }

    /// Above one and up to one and `size`, or one and a special number. A NaN keeps its bits, of which a sum
    /// would change some.
    pub fn above_one(&mut self, size: f64, mix: Mix) -> f64 {
        match self.above_zero(size, mix) {
            x if x.is_nan() => x,
            x => 1.0 + x,
        }
    }
}

/// How many numbers in a thousand are odd ones, and how many are zeros of either sign.
#[derive(Debug, Clone, Copy, PartialEq)]
pub struct Mix {
    pub odd: u64,
    pub zeros: u64,
}

impl Mix {
    pub const ORDINARY: Mix = Mix { odd: 0, zeros: 0 };
}
