//! Which refusal a call has to answer: document 01, "What each call turns down", read once more, and document 02's S-2,
//! S-5 and S-7.

pub mod poles;

use crate::call::Call;
use crate::engine::block::{self, MATERIAL, MATERIALS, PLACES, Record};
use crate::engine::{Put, Study};
use crate::save;

use poles::{all_pass, first_bad};

pub const BAD_SIZE: u32 = 1;
pub const BAD_SPACING: u32 = 2;
pub const BAD_STUDY: u32 = 3;
pub const BAD_STORE: u32 = 4;
pub const FULL: u32 = 5;
pub const TOO_MANY_POLES: u32 = 6;
pub const NO_SUCH_MATERIAL: u32 = 7;
pub const STALE_MATERIAL: u32 = 8;
pub const BAD_REGION: u32 = 9;
pub const BAD_ORDER: u32 = 10;
pub const SPENT_CLOCK: u32 = 11;
pub const NO_ROOM: u32 = 12;
pub const SHORT: u32 = 13;
pub const BAD_MARK: u32 = 14;
pub const BAD_RECORD: u32 = 15;
pub const TRAILING: u32 = 16;
pub const NO_SUCH_PLANE: u32 = 17;
pub const BAD_POLE: u32 = 19;

/// The highest number of a set of constants.
const NEWEST: usize = 1;

/// The refusal's number, 0 where the call is accepted.
pub fn refusal(study: &Study, call: &Call) -> u32 {
    match call {
        Call::Open {
            sizes,
            pole_slots,
            constants,
            spacings,
        } => opening(study, *sizes, [*pole_slots, *constants], *spacings),
        Call::Rewind(save) => rewinding(study, &save.0),
        Call::AddMaterial(m) => adding(study, &m.given()),
        call if call.is_by_hand() => 0,
        call => standing(study, call),
    }
}

/// Of a call on the standing record.
fn standing(study: &Study, call: &Call) -> u32 {
    let Some(record) = study.record() else {
        return BAD_STUDY;
    };
    first([
        fault(&record),
        when(!lent_fit(study, &record, call), BAD_STORE),
        own(study, &record, call),
    ])
}

/// The first refusal that is one.
fn first<const N: usize>(refusals: [u32; N]) -> u32 {
    refusals.into_iter().find(|r| *r != 0).unwrap_or(0)
}

fn when(refused: bool, number: u32) -> u32 {
    if refused { number } else { 0 }
}

fn sizes_fit(sizes: [usize; 3]) -> bool {
    sizes.iter().all(|n| (1..=512).contains(n)) && sizes.iter().product::<usize>() <= 1_048_576
}

fn spacings_fit(spacings: [f64; 4]) -> bool {
    spacings.iter().all(|x| x.is_finite() && *x > 0.0)
}

/// The standing block is not judged, but it has to have a block's length, as a store has its own.
fn opening(
    study: &Study,
    sizes: [usize; 3],
    [pole_slots, constants]: [usize; 2],
    spacings: [f64; 4],
) -> u32 {
    if !sizes_fit(sizes) {
        return BAD_SIZE;
    }
    first([
        when(!spacings_fit(spacings), BAD_SPACING),
        when(pole_slots > PLACES || constants > NEWEST, BAD_STUDY),
        when(!all_fit(study, sizes, pole_slots), BAD_STORE),
    ])
}

/// Of a save's bytes, and then of what is lent to be written.
fn rewinding(study: &Study, bytes: &[u8]) -> u32 {
    match save::read(bytes) {
        Err(number) => number,
        Ok(saved) => {
            let record = saved.record().unwrap();
            let fits = all_fit(study, record.sizes, record.pole_slots.into());
            when(!fits, BAD_STORE)
        }
    }
}

/// Of a material's bytes that are to be added.
pub fn adding(study: &Study, bytes: &[u8]) -> u32 {
    let Some(record) = study.record() else {
        return BAD_STUDY;
    };
    let material = block::read_material(bytes);
    let poles = material.as_ref().map_or(0, |m| m.pole_count);
    let pass = material.as_ref().is_none_or(|m| all_pass(m, &record));
    first([
        fault(&record),
        when(bytes.len() == MATERIAL && material.is_none(), BAD_STUDY),
        when(bytes.len() != MATERIAL, BAD_STORE),
        when(poles > record.pole_slots, TOO_MANY_POLES),
        when(!pass, BAD_POLE),
        when(usize::from(record.material_count) == MATERIALS, FULL),
    ])
}

/// Refusals 1 to 3 of a record.
pub fn fault(record: &Record) -> u32 {
    first([
        head_fault(record),
        when(library_contradicts(record), BAD_STUDY),
    ])
}

/// Refusals 1 to 3 by the head alone, without a look at the materials.
pub fn head_fault(record: &Record) -> u32 {
    first([
        when(!sizes_fit(record.sizes), BAD_SIZE),
        when(!spacings_fit(record.spacings), BAD_SPACING),
        when(head_contradicts(record), BAD_STUDY),
    ])
}

fn head_contradicts(record: &Record) -> bool {
    let counts = [record.built_count, record.pole_slots, record.material_count].map(usize::from);
    let [built, slots, materials] = counts;
    slots > PLACES
        || usize::from(record.constants) > NEWEST
        || !(1..=MATERIALS).contains(&materials)
        || built > materials
        || (!record.layer_on && record.active.contains(&true))
        || (record.region.kind != 0 && !region_fits(record.sizes, record.region.corners))
}

fn library_contradicts(record: &Record) -> bool {
    let mut poles = record.materials.iter().map(|m| m.pole_count);
    let first = poles.next();
    first.is_some_and(|n| n != 0)
        || poles.any(|n| n > record.pole_slots)
        || first_bad(record).is_some()
}

fn region_fits([nx, ny, nz]: [usize; 3], [i0, i1, j0, j1, k0, k1]: [usize; 6]) -> bool {
    i0 <= i1 && i1 < nx && j0 <= j1 && j1 < ny && k0 <= k1 && k1 < nz
}

/// The lengths of the stores in the order of `Study::stores`, and of the ids.
pub fn lengths(sizes: [usize; 3], pole_slots: usize) -> [usize; 9] {
    let n: usize = sizes.iter().product();
    let line: usize = sizes.iter().sum();
    [
        3 * n,
        3 * n,
        3 * n,
        6 * n,
        6 * n,
        6 * line,
        (6 * pole_slots + 3) * n,
        2 * (sizes[2] + 48),
        n,
    ]
}

fn length(study: &Study, store: usize) -> usize {
    study
        .stores()
        .get(store)
        .map_or(study.ids.len(), |(_, s)| s.len())
}

/// Whether the block and every store have their lengths.
fn all_fit(study: &Study, sizes: [usize; 3], pole_slots: usize) -> bool {
    let lengths = lengths(sizes, pole_slots);
    let fits = |store| length(study, store) == lengths[store];
    study.block.len() == block::LENGTH && (0..9).all(fits)
}

/// Which stores a call is lent, by their places in `lengths`.
pub fn lent(call: &Call) -> &'static [usize] {
    match call {
        Call::PutBox { .. } | Call::AssignHalfspace { .. } => &[2, 8],
        Call::BuildDispersion => &[6],
        Call::Periodic | Call::Conductor | Call::Cpml { .. } => &[3, 4, 5],
        Call::Lossy { .. } => &[2, 3, 4, 5],
        Call::Slab { .. } | Call::Injector { .. } | Call::BoxRegion(_) => &[7],
        Call::Open { .. } | Call::Step(_) | Call::Run(_) | Call::Save(_) | Call::Rewind(_) => {
            &[0, 1, 2, 3, 4, 5, 6, 7, 8]
        }
        Call::ResetFields => &[0, 1, 3, 4, 6],
        Call::TotalEnergy => &[0, 1, 2],
        Call::PlaneReading(_) => &[0, 1],
        // AddMaterial, SetPeriodic and SaveLength have the block alone; the rest are no calls.
        _ => &[],
    }
}

fn lent_fit(study: &Study, record: &Record, call: &Call) -> bool {
    let lengths = lengths(record.sizes, record.pole_slots.into());
    let given_fits = match call {
        Call::Cpml { given, .. } => given.0.len() == lengths[5],
        _ => true,
    };
    given_fits && lent(call).iter().all(|s| length(study, *s) == lengths[*s])
}

/// The refusals that belong to the call itself.
fn own(study: &Study, record: &Record, call: &Call) -> u32 {
    if fault(record) != 0 {
        return 0;
    }
    let [nx, ny, nz] = record.sizes;
    let region = |corners| when(!region_fits(record.sizes, corners), BAD_REGION);
    match call {
        Call::PutBox {
            what: Put::Library(id),
            ..
        }
        | Call::AssignHalfspace { id, .. } => {
            when(*id >= record.material_count.into(), NO_SUCH_MATERIAL)
        }
        Call::Lossy { order, .. } => when(*order > 8, BAD_ORDER),
        Call::Slab { k0, k1 } => region([0, nx - 1, 0, ny - 1, *k0, *k1]),
        Call::Injector { k0 } => region([0, nx - 1, 0, ny - 1, *k0, nz - 1]),
        Call::BoxRegion(corners) => region(*corners),
        Call::Step(_) => steps(study, record, 1),
        Call::Run(samples) => steps(study, record, samples.len()),
        Call::PlaneReading(k) => when(*k >= nz, NO_SUCH_PLANE),
        Call::Save(room) => when(*room < save::length(record), NO_ROOM),
        _ => 0,
    }
}

/// Of n steps to be taken.
fn steps(study: &Study, record: &Record, n: usize) -> u32 {
    let left = (u32::MAX - record.steps) as usize;
    first([
        when(stale(study, record), STALE_MATERIAL),
        when(n > left, SPENT_CLOCK),
    ])
}

fn stale(study: &Study, record: &Record) -> bool {
    let built = u32::from(record.built_count);
    built != 0 && study.ids.iter().any(|id| *id >= built)
}
