//! Random contents for a store, found again from a seed.

use crate::engine::Study;
use crate::{Mix, Random};

/// Which store is filled, with numbers of which seed and mix.
#[derive(Debug, Clone)]
pub struct Fill {
    pub store: Store,
    pub seed: u64,
    pub mix: Mix,
}

/// The stores in the order of `Study::stores`, and the ids.
#[derive(Debug, Clone, Copy, PartialEq)]
pub enum Store {
    E,
    H,
    Media,
    PsiE,
    PsiH,
    Tables,
    Poles,
    Aux,
    Ids,
}

pub const STORES: [Store; 9] = [
    Store::E,
    Store::H,
    Store::Media,
    Store::PsiE,
    Store::PsiH,
    Store::Tables,
    Store::Poles,
    Store::Aux,
    Store::Ids,
];

impl Store {
    /// The size of an ordinary number in the store, for cells of a millimetre and fields of one volt
    /// per metre: sums are then of numbers that are alike, and every rounding shows.
    fn size(self) -> f64 {
        match self {
            Store::E | Store::Aux => 1.0,
            Store::H => 1.0 / 377.0,
            Store::PsiE => 1.0,
            Store::PsiH => 1000.0,
            Store::Poles => 1e-11,
            Store::Media | Store::Tables | Store::Ids => 1.0,
        }
    }
}

impl Fill {
    pub fn write(&self, study: &mut Study) {
        let mut random = Random::new(self.seed);
        match self.store {
            Store::Ids => self.write_ids(study, &mut random),
            Store::Media => self.write_media(study, &mut random),
            Store::Tables => study.tables = tables(&mut random, study.tables.len(), self.mix),
            store => {
                for x in study.stores_mut()[store as usize].iter_mut() {
                    *x = random.number(store.size(), self.mix);
                }
            }
        }
    }

    /// Ids of materials that stand, or of those that are built; once in a while, in one cell, any id at all.
    fn write_ids(&self, study: &mut Study, random: &mut Random) {
        let counts = study.record().map(|r| [r.built_count, r.material_count]);
        let [built, standing] = counts.unwrap_or([0, 1]).map(u64::from);
        let only_built = built != 0 && random.once_in(2);
        let count = if only_built { built } else { standing };
        study.ids.fill_with(|| random.below(count) as u32);
        if random.once_in(8) {
            let cell = random.index(study.ids.len());
            study.ids[cell] = random.bits() as u32 >> random.below(32);
        }
    }

    fn write_media(&self, study: &mut Study, random: &mut Random) {
        let cells = study.media.len() / 3;
        for (at, x) in study.media.iter_mut().enumerate() {
            *x = match at / cells {
                2 if random.once_in(3) => 0.0,
                2 => random.above_zero(0.1, self.mix),
                _ => random.above_one(4.0, self.mix),
            };
        }
    }
}

/// Contents of the layer's tables. A third of the numbers are zeros of either sign, since where c is
/// one the memory is kept; some lie about 1, where 1 less kinv turns its sign.
pub fn tables(random: &mut Random, length: usize, mix: Mix) -> Vec<f64> {
    let mix = Mix { zeros: 0, ..mix };
    let one = |random: &mut Random| match random.below(6) {
        0 => 0.0,
        1 => -0.0,
        2 => 1.0 + random.unit(),
        _ => random.number(1.0, mix),
    };
    (0..length).map(|_| one(random)).collect()
}
