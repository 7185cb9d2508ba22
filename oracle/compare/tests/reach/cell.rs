//! The numbers of one cell, and in which of them two studies differ.

use crate::draw;
use compare::engine::Study;
use compare::fill::Store;
use compare::{Mix, Random, agree};

/// The stores that have numbers for each cell, and the ids.
pub const STORES: [Store; 7] = [
    Store::E,
    Store::H,
    Store::Media,
    Store::PsiE,
    Store::PsiH,
    Store::Poles,
    Store::Ids,
];

/// One number of a cell: its store, and which it is of those that the cell has there.
#[derive(Debug, Clone, Copy, PartialEq)]
pub struct Place {
    pub store: Store,
    pub part: usize,
}

fn length(study: &Study, store: Store) -> usize {
    match store {
        Store::Ids => study.ids.len(),
        store => study.stores()[store as usize].1.len(),
    }
}

/// Every number that a cell has; the id is the last.
pub fn places(study: &Study) -> Vec<Place> {
    let cells = study.ids.len();
    let parts = |store| (0..length(study, store) / cells).map(move |part| Place { store, part });
    STORES.into_iter().flat_map(parts).collect()
}

impl Place {
    /// Stores have the first number of all cells, then the second of all, and so on.
    fn at(&self, study: &Study, cell: usize) -> usize {
        self.part * study.ids.len() + cell
    }

    /// An id as the double that it is equal to.
    pub fn of(&self, study: &Study, cell: usize) -> f64 {
        let at = self.at(study, cell);
        match self.store {
            Store::Ids => study.ids[at].into(),
            store => study.stores()[store as usize].1[at],
        }
    }

    pub fn put(&self, study: &mut Study, cell: usize, x: f64) {
        let at = self.at(study, cell);
        match self.store {
            Store::Ids => study.ids[at] = x as u32,
            store => study.stores_mut()[store as usize][at] = x,
        }
    }
}

/// The numbers of a cell in which two studies differ, all NaNs counted as one.
pub fn differing(a: &Study, b: &Study, cell: usize) -> Vec<Place> {
    let mut places = places(a);
    places.retain(|place| !agree(place.of(a, cell), place.of(b, cell)));
    places
}

/// Puts all numbers of a cell, and its id, as another study has them.
pub fn copy(from: &Study, to: &mut Study, cell: usize) {
    for place in places(from) {
        let x = place.of(from, cell);
        place.put(to, cell, x);
    }
}

/// By document 01's lengths: how many numbers a cell has in each store, with P pole slots.
fn parts(store: Store, pole_slots: usize) -> usize {
    match store {
        Store::E | Store::H | Store::Media => 3,
        Store::PsiE | Store::PsiH => 6,
        Store::Poles => 6 * pole_slots + 3,
        Store::Tables | Store::Aux => 0,
        Store::Ids => 1,
    }
}

/// The number of a store that stands at `at` changed in a copy: only its own cell then differs, and in it alone.
fn seen(study: &Study, store: Store, at: usize) {
    let cells = study.ids.len();
    let mut other = study.clone();
    match store {
        Store::Ids => other.ids[at] ^= 1,
        store => other.stores_mut()[store as usize][at] += 1000.0,
    }
    let part = at / cells;
    for cell in 0..cells {
        let expected = match cell == at % cells {
            true => vec![Place { store, part }],
            false => vec![],
        };
        let differing = differing(study, &other, cell);
        assert_eq!(
            differing, expected,
            "{store:?} changed at {at}, cell {cell}"
        );
    }
}

/// So no test passes because a number is not looked at.
#[test]
fn each_number_is_its_cells() {
    let mut random = Random::new(13);
    let record = draw::lively(&mut random, [3, 2, 2]);
    let study = draw::study(&mut random, &record, Mix::ORDINARY);
    for store in STORES {
        let length = 12 * parts(store, 4);
        assert_eq!(super::cell::length(&study, store), length, "{store:?}");
        for at in 0..length {
            seen(&study, store, at);
        }
    }
    assert_eq!(places(&study).len(), 48 + 1);
}

#[test]
fn nans_are_one_and_zeros_are_two() {
    let mut random = Random::new(14);
    let record = draw::lively(&mut random, [2, 1, 2]);
    let study = draw::study(&mut random, &record, Mix::ORDINARY);
    let (cell, place) = (3, places(&study)[20]);
    let with = |x| {
        let mut study = study.clone();
        place.put(&mut study, cell, x);
        study
    };
    let nans = [random.nan(), -f64::NAN].map(with);
    assert_eq!(differing(&nans[0], &nans[1], cell), []);
    let zeros = [0.0, -0.0].map(with);
    assert_eq!(differing(&zeros[0], &zeros[1], cell), [place]);
}
