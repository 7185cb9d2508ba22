//! A study's part of the list, as bytes: crates/replay has the order.

use crate::engine::Study;

const NAN: u64 = 0x7FF8_0000_0000_0000;

/// The counts, the block, the stores and the samples.
pub fn before(study: &Study, samples: &[f64]) -> Vec<u8> {
    let stores = study.stores().map(|(_, store)| store);
    let lengths = stores.iter().map(|store| store.len());
    let counts = lengths.chain([study.ids.len(), samples.len()]);
    let mut out: Vec<u8> = counts.flat_map(|n| (n as u32).to_le_bytes()).collect();
    out.extend(&study.block);
    out.extend(stores.iter().flat_map(|store| doubles(store)));
    out.extend(study.ids.iter().flat_map(|id| id.to_le_bytes()));
    out.extend(doubles(samples));
    out
}

/// The stores that a step changes, and the block.
pub fn after(study: &Study) -> Vec<u8> {
    let Study {
        e,
        h,
        psi_e,
        psi_h,
        poles,
        aux,
        ..
    } = study;
    let stores = [e, h, psi_e, psi_h, poles, aux];
    let mut out: Vec<u8> = stores
        .into_iter()
        .flat_map(|store| doubles(store))
        .collect();
    out.extend(&study.block);
    out
}

fn doubles(store: &[f64]) -> Vec<u8> {
    let bits = |x: &f64| if x.is_nan() { NAN } else { x.to_bits() };
    store.iter().flat_map(|x| bits(x).to_le_bytes()).collect()
}
