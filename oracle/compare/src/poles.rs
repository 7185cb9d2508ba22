//! Random poles: such as can be stepped, such as cannot, and such as are next to the edge between the two.

use crate::engine::block::{Material, Pole, Record};
use crate::judge::poles::passes;
use crate::{Mix, Random, SIGN};

/// How many are drawn to find one that passes.
const TRIES: usize = 16;

/// What poles are made for: the time step and the constants that they are judged by, and which numbers they have.
#[derive(Clone, Copy)]
pub struct Poles {
    pub dt: f64,
    pub constants: u8,
    pub mix: Mix,
}

type Draw = fn(&Poles, &mut Random) -> Pole;

/// The numbers that a pole of its kind has.
pub fn used(pole: &Pole) -> &[f64] {
    match pole.tag {
        1 => &pole.numbers,
        _ => &pole.numbers[..2],
    }
}

/// What is wrong with a pole that cannot be stepped.
pub fn fault(pole: &Pole, dt: f64) -> &'static str {
    let any = |kind: fn(&f64) -> bool| used(pole).iter().any(kind);
    let last = used(pole)[used(pole).len() - 1];
    match pole.tag {
        _ if any(|x| x.is_nan()) => "a NaN",
        _ if any(|x| x.is_infinite()) => "an infinity",
        3 if last == 0.0 => "a relaxation time of 0",
        1 | 2 if 1.0 + last * dt / 2.0 == 0.0 => "a gamma of -2/dt",
        _ => "a coefficient beyond the largest double",
    }
}

/// A material of a record with a pole that cannot be stepped in the place of one that it has, or with such a one alone;
/// and its id. None where no material may have a pole.
pub fn ruined(random: &mut Random, record: &Record, mix: Mix) -> Option<(usize, Material)> {
    let others = record.materials.len() - 1;
    if others == 0 || record.pole_slots == 0 {
        return None;
    }
    let id = 1 + random.index(others);
    let mut material = record.materials[id].clone();
    let pole = Poles::of(record, mix).bad(random);
    match material.poles.len() {
        0 => {
            material.poles.push(pole);
            material.pole_count = 1;
        }
        count => material.poles[random.index(count)] = pole,
    }
    Some((id, material))
}

impl Poles {
    /// Those of a record.
    pub fn of(record: &Record, mix: Mix) -> Self {
        let (dt, constants) = (record.spacings[3], record.constants);
        Self { dt, constants, mix }
    }

    fn passes(&self, pole: &Pole) -> bool {
        passes(pole, self.constants, self.dt)
    }

    /// One that can be stepped.
    pub fn good(&self, random: &mut Random) -> Pole {
        self.passing(random, Self::any)
    }

    /// One that cannot.
    pub fn bad(&self, random: &mut Random) -> Pole {
        loop {
            let mut pole = self.any(random);
            if self.passes(&pole) {
                let at = random.index(used(&pole).len());
                pole.numbers[at] = self.ruin(random);
            }
            if !self.passes(&pole) {
                return pole;
            }
        }
    }

    /// Two that differ by one unit in the last place of one number: the first can be stepped, and the second cannot.
    /// Half of the time that is tau of a strong pole: a3 is then about the largest double, and the constants decide.
    pub fn edge(&self, random: &mut Random) -> [Pole; 2] {
        let strong = random.once_in(2);
        let draw: Draw = if strong { Self::strong } else { Self::usual };
        let good = self.passing(random, draw);
        let at = match strong {
            true => 1,
            false => random.index(used(&good).len()),
        };
        let end = match (good.tag, at) {
            (3, 1) => 0.0,
            _ => f64::INFINITY,
        };
        let x = good.numbers[at].to_bits();
        let with = |size: u64| {
            let mut pole = good.clone();
            pole.numbers[at] = f64::from_bits(x & SIGN | size);
            pole
        };
        let (mut passing, mut failing) = (x & !SIGN, end.to_bits());
        while passing.abs_diff(failing) > 1 {
            let between = passing.midpoint(failing);
            match self.passes(&with(between)) {
                true => passing = between,
                false => failing = between,
            }
        }
        [passing, failing].map(with)
    }

    /// The first of some that can be stepped. Where dt is next to nothing, a rate of one over it is infinite, and there
    /// may be none: then one with tau dt.
    fn passing(&self, random: &mut Random, draw: Draw) -> Pole {
        let mut drawn = (0..TRIES).map(|_| draw(self, random));
        let found = drawn.find(|pole| self.passes(pole));
        found.unwrap_or_else(|| debye(1.0, self.dt))
    }

    /// Where the mix has odd numbers, some are of any sizes and some at the edge.
    fn any(&self, random: &mut Random) -> Pole {
        match random.below(8) {
            0 if self.mix.odd != 0 => self.sized(random),
            1 if self.mix.odd != 0 => self.edge(random)[random.index(2)].clone(),
            _ => self.usual(random),
        }
    }

    /// Frequencies below one over dt, so that the polarizations move and do not explode, or above it,
    /// where a1 turns its sign. A NaN keeps its bits.
    fn usual(&self, random: &mut Random) -> Pole {
        let tag = tag(random);
        let size = [0.3, 0.3, 3.0][random.index(3)];
        let [rate, gamma] = [0; 2].map(|_| quotient(random.above_zero(size, self.mix), self.dt));
        let strength = random.above_zero(3.0, self.mix);
        let numbers = match tag {
            1 => [strength, rate, gamma],
            2 => [rate, gamma, 0.0],
            _ => [strength, quotient(1.0, gamma), 0.0],
        };
        Pole { tag, numbers }
    }

    /// Rates of any signs, whatever dt is.
    fn sized(&self, random: &mut Random) -> Pole {
        let tag = tag(random);
        let [x, y, z] = [0; 3].map(|_| random.number(1e11, self.mix));
        let numbers = [x, y, if tag == 1 { z } else { 0.0 }];
        Pole { tag, numbers }
    }

    fn strong(&self, random: &mut Random) -> Pole {
        debye(random.with_field(1900, 2046), self.dt)
    }

    /// A number that many a pole cannot be stepped with.
    fn ruin(&self, random: &mut Random) -> f64 {
        let numbers = [
            0.0,
            -0.0,
            random.nan(),
            f64::INFINITY,
            f64::MAX,
            -2.0 / self.dt,
        ];
        numbers[random.index(numbers.len())]
    }
}

fn debye(delta_eps: f64, tau: f64) -> Pole {
    let numbers = [delta_eps, tau, 0.0];
    Pole { tag: 3, numbers }
}

fn tag(random: &mut Random) -> u8 {
    1 + random.below(3) as u8
}

/// x over y; where one of them is a NaN, that one with all its bits.
fn quotient(x: f64, y: f64) -> f64 {
    let nan = [x, y].into_iter().find(|x| x.is_nan());
    nan.unwrap_or(x / y)
}
