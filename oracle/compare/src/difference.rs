//! The first place in which two studies differ.

use crate::agree;
use crate::engine::Study;

/// The block, where it is a record with every NaN as the one.
fn block(study: &Study) -> Vec<u8> {
    let record = study.record();
    record.map_or_else(|| study.block.clone(), |record| record.write())
}

/// Block and stores number by number, with all NaNs counted as one.
pub fn first_difference(expected: &Study, got: &Study) -> Option<String> {
    let shown = |name: &str, at: usize, width: usize, a: u64, b: u64| {
        format!("{name} at {at}: {b:0width$X} in place of {a:0width$X}")
    };
    if expected.block != got.block {
        let (a, b) = (block(expected), block(got));
        if let Some(at) = first(&a, &b, |x, y| x == y) {
            return Some(shown("block", at, 2, a[at].into(), b[at].into()));
        }
    }
    for ((name, a), (_, b)) in expected.stores().into_iter().zip(got.stores()) {
        if let Some(at) = first(a, b, |x, y| agree(*x, *y)) {
            return Some(shown(name, at, 16, a[at].to_bits(), b[at].to_bits()));
        }
    }
    let at = first(&expected.ids, &got.ids, |a, b| a == b)?;
    let (a, b) = (expected.ids[at], got.ids[at]);
    Some(shown("ids", at, 8, a.into(), b.into()))
}

fn first<T>(a: &[T], b: &[T], equal: impl Fn(&T, &T) -> bool) -> Option<usize> {
    assert_eq!(a.len(), b.len());
    a.iter().zip(b).position(|(x, y)| !equal(x, y))
}

/// Whether two studies have the same bits everywhere, those of NaNs included.
pub fn untouched(a: &Study, b: &Study) -> bool {
    let bits = |store: &[f64], other: &[f64]| {
        let mut pairs = store.iter().zip(other);
        store.len() == other.len() && pairs.all(|(x, y)| x.to_bits() == y.to_bits())
    };
    let mut stores = a.stores().into_iter().zip(b.stores());
    a.block == b.block && a.ids == b.ids && stores.all(|((_, x), (_, y))| bits(x, y))
}
