//! The library's calls: each refusal, what it leaves, saves, constants, threads, the layer that is told.

use cichowiej::{CellBox, Constants, CpmlConfig, Field, Grid, Material, MaterialId, Pole, Put, Refusal, Source, Study};
use cichowiej::{MATERIAL_LENGTH, REFUSALS, pole_place};
use std::path::Path;
use std::{fs, thread};

fn grid(cells: [usize; 3]) -> Grid {
    let (pitch, constants) = ([1e-3; 3], Constants::Old);
    Grid { cells, pitch, dt: 0.5 * constants.largest_dt(pitch), pole_slots: 1, constants }
}

fn line(n: usize) -> Study {
    Study::open(&grid([1, 1, n])).unwrap()
}

fn debye() -> Material {
    Material::plain(5.0).with_pole(Pole::Debye { delta_eps: 10.0, tau: 1e-11 })
}

/// A refused call leaves every byte of the study.
fn refused<T: std::fmt::Debug>(study: &mut Study, call: impl FnOnce(&mut Study) -> Result<T, Refusal>, refusal: Refusal) {
    let before = study.save().unwrap();
    assert_eq!(call(study).unwrap_err(), refusal);
    assert!(study.save().unwrap() == before, "{refusal}: the study is another one");
}

#[test]
fn openings_are_refused_for_their_first_fault() {
    let open = |grid| Study::open(&grid).map(|_| ()).unwrap_err();
    assert_eq!(open(grid([0, 1, 1])), Refusal::BadSize);
    assert_eq!(open(grid([513, 1, 1])), Refusal::BadSize);
    assert_eq!(open(grid([512, 512, 5])), Refusal::BadSize);
    assert_eq!(open(grid([usize::MAX; 3])), Refusal::BadSize);
    let mut flat = grid([1, 1, 1]);
    flat.dt = 0.0;
    assert_eq!(open(flat), Refusal::BadSpacing);
    flat.dt = f64::NAN;
    assert_eq!(open(flat), Refusal::BadSpacing);
    let mut many = grid([1, 1, 1]);
    many.pole_slots = usize::MAX;
    assert_eq!(open(many), Refusal::BadStudy);
}

#[test]
fn calls_are_refused_and_change_nothing() {
    let mut study = line(30);
    refused(&mut study, |s| s.set_boundary_tables([false, false, true], 3, &[0.0; 7]), Refusal::BadStore);
    refused(&mut study, |s| s.slab_z(3, 30), Refusal::BadRegion);
    refused(&mut study, |s| s.injector_z(usize::MAX), Refusal::BadRegion);
    refused(&mut study, |s| s.box_region([0, 1, 0, 0, 0, 0]), Refusal::BadRegion);
    refused(&mut study, |s| s.set_boundary_lossy(3, 9, 1.0), Refusal::BadOrder);
    refused(&mut study, |s| s.plane_reading(30), Refusal::NoSuchPlane);
    let two = debye().with_pole(Pole::Drude { omega_p: 1e9, gamma: 1e9 });
    refused(&mut study, |s| s.add_material(&two), Refusal::TooManyPoles);
    let five = (0..5).fold(Material::plain(1.0), |m, _| m.with_pole(Pole::Debye { delta_eps: 1.0, tau: 1.0 }));
    refused(&mut study, |s| s.add_material(&five), Refusal::TooManyPoles);
    let elsewhere = line(2).add_material(&debye()).unwrap();
    refused(&mut study, |s| s.put_box(CellBox::planes(0, 0), Put::Library(elsewhere)), Refusal::NoSuchMaterial);
    study.add_material(&debye()).unwrap();
    study.build_dispersion().unwrap();
    let late = study.add_material(&debye()).unwrap();
    study.assign_material_halfspace_z(late, 10).unwrap();
    refused(&mut study, |s| s.step(1.0), Refusal::StaleMaterial);
    refused(&mut study, |s| s.run(&[1.0, 2.0]), Refusal::StaleMaterial);
    for _ in study.material_count()..16 {
        study.add_material(&Material::plain(2.0)).unwrap();
    }
    refused(&mut study, |s| s.add_material(&Material::plain(2.0)), Refusal::Full);
}

/// A Debye pole whose a3 lies above the largest double by the old constants and below it by those of 2019, at a time step of 1 s.
fn on_the_edge() -> Pole {
    Pole::Debye { delta_eps: 1.7e308, tau: f64::from_bits(0x3DA269973FB889A1) }
}

/// Document 02, S-2: poles, a time step and constants, and whether the pole cannot be stepped with them.
fn poles() -> Vec<(Pole, f64, Constants, bool)> {
    let debye = |delta_eps, tau| Pole::Debye { delta_eps, tau };
    let lorentz = |delta_eps, omega0, gamma| Pole::Lorentz { delta_eps, omega0, gamma };
    let drude = |omega_p, gamma| Pole::Drude { omega_p, gamma };
    let by_the_old = [
        (debye(2.0, 0.0), 1e-12, true),
        (debye(2.0, -0.0), 1e-12, true),
        (debye(0.0, 0.0), 1e-12, true),
        (debye(2.0, 1e-321), 1e-12, true),
        (debye(2.0, 1e-321), 1e-13, false),
        (debye(2.0, 0.5f64.powi(1023)), 1.0, false),
        (debye(2.0, 0.5f64.powi(1024)), 1.0, true),
        (debye(2.0, f64::INFINITY), 1e-12, false),
        (debye(f64::INFINITY, 1e-12), 1e-12, true),
        (debye(2.0, f64::NAN), 1e-12, true),
        (lorentz(2.0, 2e11, 1e10), 1e-12, false),
        (lorentz(2.0, 1e200, 1e10), 1e-12, true),
        (lorentz(0.0, 0.0, f64::INFINITY), 1e-12, true),
        // 1 + gamma dt / 2 is 0
        (lorentz(2.0, 1.0, -2.0), 1.0, true),
        (drude(1e200, 1e9), 1e-12, true),
        (drude(1e150, 1e9), 1e-12, false),
        (drude(1.0, -4.0), 0.5, true),
        (on_the_edge(), 1.0, true),
    ];
    let by_the_new = [(on_the_edge(), 1.0, false), (debye(2.0, 0.0), 1e-12, true)];
    let with = |constants| move |(pole, dt, is_bad)| (pole, dt, constants, is_bad);
    by_the_old.map(with(Constants::Old)).into_iter().chain(by_the_new.map(with(Constants::Si2019))).collect()
}

#[test]
fn poles_that_cannot_be_stepped_are_refused() {
    for (pole, dt, constants, is_bad) in poles() {
        let mut study = Study::open(&Grid { dt, constants, ..grid([1, 1, 3]) }).unwrap();
        let material = Material::plain(2.0).with_pole(pole);
        assert_eq!(pole.ade_coeffs(dt, constants).err(), is_bad.then_some(Refusal::BadPole), "{pole:?} {dt:e} {constants}");
        assert_eq!(material.bad_poles(dt, constants).len(), usize::from(is_bad));
        if is_bad {
            refused(&mut study, |s| s.add_material(&material), Refusal::BadPole);
            assert_eq!(material.alternating(dt, constants), f64::NEG_INFINITY, "it has no stable step: {pole:?}");
        } else {
            let id = study.add_material(&material).unwrap();
            assert_eq!(study.material(id), Some(material));
        }
    }
}

/// 6 comes before 19, and 19 before 5.
#[test]
fn a_bad_pole_has_its_place_among_the_refusals() {
    let bad = Material::plain(2.0).with_pole(Pole::Debye { delta_eps: 2.0, tau: 0.0 });
    let mut none = Study::open(&Grid { pole_slots: 0, ..grid([1, 1, 3]) }).unwrap();
    refused(&mut none, |s| s.add_material(&bad), Refusal::TooManyPoles);
    let mut full = line(3);
    for _ in 1..16 {
        full.add_material(&debye()).unwrap();
    }
    refused(&mut full, |s| s.add_material(&bad), Refusal::BadPole);
    refused(&mut full, |s| s.add_material(&debye()), Refusal::Full);
    let two = debye().with_pole(bad.poles[0]);
    assert_eq!(two.bad_poles(grid([1; 3]).dt, Constants::Old), [1]);
    refused(&mut full, |s| s.add_material(&two), Refusal::TooManyPoles);
}

/// By hand, each operation rounded in the order in which the formula of document 01's Rust has it.
#[test]
fn coefficients_are_those_of_the_recursion() {
    for constants in Constants::ALL {
        let eps0 = constants.eps0();
        let debye = Pole::Debye { delta_eps: 3.0, tau: 8.0 };
        assert_eq!(debye.ade_coeffs(1.0, constants), Ok([0.875, 0.0, eps0 * 3.0 / 8.0]));
        let drude = Pole::Drude { omega_p: 2.0, gamma: 2.0 };
        assert_eq!(drude.ade_coeffs(1.0, constants), Ok([1.0, 0.0, eps0 * 4.0 / 2.0]));
        let lorentz = Pole::Lorentz { delta_eps: 3.0, omega0: 2.0, gamma: 1.0 };
        assert_eq!(lorentz.ade_coeffs(2.0, constants), Ok([-7.0, 0.0, eps0 * 12.0 * 4.0 / 2.0]));
    }
}

#[test]
fn a_material_reads_back_from_its_bytes() {
    for (pole, ..) in poles() {
        let bytes = debye().with_sigma(0.5).with_pole(pole).bytes();
        let read = |bytes: &[u8; MATERIAL_LENGTH]| Material::from_bytes(bytes).map(|material| material.bytes());
        assert_eq!(read(&bytes), Some(bytes), "{pole:?}");
        let with = |at: usize, byte: u8| {
            let mut changed = bytes;
            changed[at] = byte;
            read(&changed)
        };
        assert_eq!([with(24, 3), with(24, 5), with(pole_place(0), 7), with(pole_place(1), 0)], [None; 4]);
        assert_eq!(with(pole_place(2), 7), Some(bytes), "a place that is not counted");
    }
}

/// The save that a library wrote which took such poles, and one that is damaged behind it.
#[test]
fn a_save_with_a_pole_that_cannot_be_stepped_is_refused() {
    let mut study = line(3);
    study.add_material(&debye()).unwrap();
    let (save, material) = (study.save().unwrap(), study.material(MaterialId::numbered(1)).unwrap().bytes());
    let at = save.windows(material.len()).position(|bytes| bytes == material).unwrap();
    let tau = at + pole_place(0) + 9;
    let mut bad = save.clone();
    bad[tau..tau + 8].fill(0);
    assert_eq!(Study::from_save(&bad).map(|_| ()), Err(Refusal::BadRecord));
    refused(&mut study, |s| s.rewind(&bad), Refusal::BadRecord);
    // ML ends with this material, and CI's mark follows
    let mark = at + material.len();
    assert_eq!(&bad[mark..mark + 2], b"CI");
    bad[mark] = b'X';
    assert_eq!(Study::from_save(&bad).map(|_| ()), Err(Refusal::BadRecord));
    bad[tau..tau + 8].copy_from_slice(&save[tau..tau + 8]);
    assert_eq!(Study::from_save(&bad).map(|_| ()), Err(Refusal::BadMark));
}

/// Document 02, S-5: how many cells, by the ranges cut to the grid; three numbers leave the ids, and with them the poles.
#[test]
fn boxes_are_filled_and_counted() {
    let mut study = Study::open(&grid([4, 3, 2])).unwrap();
    let wet = study.add_material(&debye()).unwrap();
    let cells = CellBox { x: (1, 9), y: (0, 2), z: (1, usize::MAX) };
    let air = Put::Numbers { eps_r: 1.0, mu_r: 1.0, sigma: 0.0 };
    let opened = study.save().unwrap();
    assert_eq!(study.put_box(cells, air), Ok(6));
    assert!(study.save().unwrap() == opened, "six cells of air are set to what they had");
    assert_eq!(study.put_box(cells, Put::Library(wet)), Ok(6));
    let filled = study.save().unwrap();
    for x in [(2, 2), (3, 1), (4, 9)] {
        assert_eq!(
            (study.put_box(CellBox { x, ..cells }, air), study.put_box(CellBox { x, ..cells }, Put::Library(wet))),
            (Ok(0), Ok(0))
        );
    }
    assert!(study.save().unwrap() == filled);
    // the poles stand, so that a build takes them up as before, and only the three numbers of six cells are others
    assert_eq!(study.put_box(cells, air), Ok(6));
    let changed = study.save().unwrap().iter().zip(&filled).filter(|(a, b)| a != b).count();
    let of_one = 1.0f64.to_le_bytes().iter().zip(5.0f64.to_le_bytes()).filter(|(a, b)| **a != *b).count();
    assert_eq!(changed, 6 * of_one);
}

#[test]
fn saves_are_taken_up_and_damaged_ones_are_not() {
    let mut study = line(12);
    study.injector_z(3).unwrap();
    study.run(&[1.0, 2.0, 3.0]).unwrap();
    let save = study.save().unwrap();
    let again = Study::from_save(&save).unwrap();
    assert!(again.save().unwrap() == save && again.steps() == 3);
    let mut other = line(5);
    other.rewind(&save).unwrap();
    assert!(other.save().unwrap() == save);
    let damaged = |change: &dyn Fn(&mut Vec<u8>)| {
        let mut bytes = save.clone();
        change(&mut bytes);
        Study::from_save(&bytes).map(|_| ()).unwrap_err()
    };
    assert_eq!(damaged(&|b| b.truncate(b.len() - 1)), Refusal::Short);
    assert_eq!(damaged(&|b| b.clear()), Refusal::Short);
    assert_eq!(damaged(&|b| b[0] = 0), Refusal::BadMark);
    assert_eq!(damaged(&|b| b[12] = 7), Refusal::BadRecord);
    assert_eq!(damaged(&|b| b.push(0)), Refusal::Trailing);
    // the clock at its end: the steps stand before the constants, GH's last byte
    let mut spent = save.clone();
    spent[75..79].fill(0xFF);
    let mut spent = Study::from_save(&spent).unwrap();
    refused(&mut spent, |s| s.step(0.0), Refusal::SpentClock);
}

/// Document 02's numbers, S-7. c0 of 2019 is the stated one: the root would give other last bits.
#[test]
fn the_two_sets_of_constants() {
    let three = |set: Constants| [set.eps0(), set.mu0(), set.c0()];
    let root = |set: Constants| 1.0 / (set.eps0() * set.mu0()).sqrt();
    assert_eq!(three(Constants::Si2019), [8.8541878128e-12, 1.25663706212e-6, 299792458.0]);
    assert_ne!(Constants::Si2019.c0(), root(Constants::Si2019));
    assert_eq!(three(Constants::Old), [8.854187817e-12, 4.0 * std::f64::consts::PI * 1e-7, root(Constants::Old)]);
    assert_eq!(Constants::default(), Constants::Old);
    for (number, constants) in Constants::ALL.into_iter().enumerate() {
        assert_eq!((constants.number(), Constants::numbered(number)), (number, Some(constants)));
        assert_eq!(Constants::named(constants.name()), Some(constants));
    }
    assert_eq!((Constants::numbered(2), Constants::named("2018")), (None, None));
}

/// What the library computes beside the engine goes by the study's own set.
#[test]
fn numbers_beside_the_engine_go_by_the_constants() {
    let bits = |x: f64| x.to_bits();
    for constants in Constants::ALL {
        let (pitch, c0, eps0) = ([1e-3; 3], constants.c0(), constants.eps0());
        let per_length = 3f64.sqrt() / 1e-3;
        let grid = Grid { dt: constants.largest_dt(pitch), constants, ..grid([1, 1, 30]) };
        // to the last digits, which tell the sets apart by 3e-11
        assert!((grid.dt * c0 * per_length - 1.0).abs() < 1e-15 && (grid.courant_number() - 1.0).abs() < 1e-15);
        let half = Grid { dt: 0.5e-3 / c0, ..grid };
        let sixth = std::f64::consts::FRAC_1_PI * 0.5f64.asin() / half.dt;
        assert!((half.cutoff_frequency() / sixth - 1.0).abs() < 1e-15);
        let lossy = Material::plain(1.0).with_sigma(0.5).permittivity(1e10, constants);
        assert_eq!(bits(lossy.im), bits(-0.5 / (2.0 * std::f64::consts::PI * 1e10 * eps0)));
    }
    let tables = |constants| cichowiej::tables(&Grid { constants, ..grid([1, 1, 30]) }, &CpmlConfig::default()).unwrap();
    assert_ne!(tables(Constants::Old), tables(Constants::Si2019));
}

/// ex of 1.0 alone, in a cell of 1 m³: half of ε0, bit for bit.
#[test]
fn the_energy_goes_by_the_constants() {
    for (constants, energy) in [(Constants::Old, 0x3D937876F148112E), (Constants::Si2019, 0x3D937876F1206634)] {
        let grid = Grid { cells: [1; 3], pitch: [1.0; 3], dt: 1e-9, pole_slots: 0, constants };
        let mut save = Study::open(&grid).unwrap().save().unwrap();
        // behind GH, ML, CI and CM, and its own frame
        let ex = (6 + 74) + (6 + 125) + (6 + 4) + (6 + 24) + 6;
        save[ex..ex + 8].copy_from_slice(&1f64.to_le_bytes());
        let study = Study::from_save(&save).unwrap();
        assert_eq!((study.plane(Field::Electric, 0, 0), study.grid()), (&[1.0][..], grid));
        assert_eq!(study.total_energy().unwrap().to_bits(), energy);
    }
}

#[test]
fn a_save_has_its_studys_constants() {
    let small = |constants| Study::open(&Grid { pole_slots: 0, constants, ..grid([1; 3]) }).unwrap();
    let [old, new] = Constants::ALL.map(|constants| small(constants).save().unwrap());
    assert_eq!((old.len(), new.len(), old[79], new[79]), (1389, 1389, 0, 1));
    let mut study = small(Constants::Old);
    study.rewind(&new).unwrap();
    assert_eq!(study.grid().constants, Constants::Si2019);
    let changed = |at: usize, byte: u8| {
        let mut bytes = new.clone();
        bytes[at] = byte;
        Study::from_save(&bytes).map(|_| ()).unwrap_err()
    };
    assert_eq!(changed(79, 2), Refusal::BadRecord);
    assert_eq!((changed(2, 72), changed(2, 75)), (Refusal::BadRecord, Refusal::BadRecord));
    assert_eq!(changed(2, 73), Refusal::BadMark);
}

/// A save that the library wrote before there was a choice.
fn older(name: &str) -> Vec<u8> {
    fs::read(Path::new(env!("CARGO_MANIFEST_DIR")).join(format!("../../oracle/compare/old/{name}.save"))).unwrap()
}

/// The third of them, which has a pole with a strength of NaN, refused now; and with another strength.
fn older_with_a_bad_pole() -> Vec<u8> {
    let mut save = older("nan");
    assert_eq!(Study::from_save(&save).map(|_| ()), Err(Refusal::BadRecord));
    // behind the frames of GH and ML, GH, the vacuum, and the pole's tag
    let at = 2 * 6 + 73 + MATERIAL_LENGTH + pole_place(0) + 1;
    assert_eq!(save[at..at + 8], f64::NAN.to_le_bytes());
    save[at..at + 8].copy_from_slice(&2f64.to_le_bytes());
    save
}

#[test]
fn older_saves_have_the_old_constants() {
    for (name, old) in [("small", older("small")), ("poles", older("poles")), ("nan", older_with_a_bad_pole())] {
        assert_eq!(old[2..6], [73, 0, 0, 0], "{name}");
        let study = Study::from_save(&old).unwrap();
        assert_eq!(study.grid().constants, Constants::Old);
        let wider = [&old[..2], &[74, 0, 0, 0], &old[6..79], &[0], &old[79..]].concat();
        assert!(study.save().unwrap() == wider, "{name}");
        for end in (0..old.len()).step_by(old.len() / 700 + 1) {
            assert_eq!(Study::from_save(&old[..end]).map(|_| ()).unwrap_err(), Refusal::Short, "{name} cut at {end}");
        }
        assert_eq!(Study::from_save(&[&old[..], &[0]].concat()).map(|_| ()).unwrap_err(), Refusal::Trailing, "{name}");
    }
}

/// As BAD_POLE of the header is BadPole.
fn as_in_rust(name: &str) -> String {
    name.split('_').map(|word| word[..1].to_string() + &word[1..].to_lowercase()).collect()
}

/// Those of the header, in its order, and no others; a number between them that is none's is none.
#[test]
fn refusals_have_the_headers_numbers_and_say_what_to_change() {
    let header = fs::read_to_string(Path::new(env!("CARGO_MANIFEST_DIR")).join("../../include/cichowiej.h")).unwrap();
    let (_, rest) = header.split_once("#define CICHOWIEJ_ACCEPTED 0\n").unwrap();
    let (list, _) = rest.split_once("/* ---- ").unwrap();
    let defined = list.lines().filter_map(|line| line.strip_prefix("#define CICHOWIEJ_"));
    let words = defined.map(|line| line.split_whitespace().collect::<Vec<_>>());
    let wanted: Vec<(String, u32)> = words.map(|words| (as_in_rust(words[0]), words[1].parse().unwrap())).collect();
    let known: Vec<(String, u32)> = REFUSALS.iter().map(|refusal| (refusal.name().into(), refusal.number())).collect();
    assert_eq!(known, wanted);
    assert!(wanted.contains(&("BadPole".into(), 19)));
    for number in 0..100 {
        let found = Refusal::numbered(number);
        assert_eq!(found.map(|refusal| refusal.name()), wanted.iter().find(|(_, n)| *n == number).map(|(name, _)| name.as_str()));
        let text = found.map(|refusal| (refusal.to_string(), format!("{number} {}: ", refusal.name())));
        assert!(text.is_none_or(|(text, begin)| text.starts_with(&begin) && text.len() > 30), "{found:?}");
    }
}

#[test]
fn the_layer_says_where_it_works() {
    let mut study = Study::open(&grid([1, 21, 22])).unwrap();
    let layer = study.set_boundary_cpml(&CpmlConfig::default()).unwrap();
    assert_eq!((layer.active, layer.missing()), ([false, false, true], [true, true, false]));
    assert_eq!(study.active(), layer.active);
    let nowhere = Grid { cells: [usize::MAX; 3], ..grid([1, 1, 1]) };
    assert_eq!(cichowiej::tables(&nowhere, &CpmlConfig::default()), Err(Refusal::BadSize));
    let huge = CpmlConfig { thickness: usize::MAX, ..CpmlConfig::default() };
    assert_eq!(study.set_boundary_cpml(&huge).unwrap().active, [false; 3]);
}

#[test]
fn studies_run_side_by_side_as_they_do_alone() {
    fn is_sent<T: Send>() {}
    is_sent::<Study>();
    let run = |seed: usize| {
        let mut study = line(60);
        study.set_periodic([true, true, false]).unwrap();
        study.set_boundary_cpml(&CpmlConfig { axes: [false, false, true], ..CpmlConfig::default() }).unwrap();
        study.injector_z(15 + seed).unwrap();
        let source = Source::Gaussian { amplitude: 1.0, width: 20e-12, delay: 80e-12 };
        let samples: Vec<f64> = source.samples(study.time(), study.grid().dt, 0).take(100).collect();
        study.run(&samples).unwrap();
        study.save().unwrap()
    };
    let alone: Vec<Vec<u8>> = (0..4).map(run).collect();
    let together: Vec<Vec<u8>> = thread::scope(|scope| {
        let handles: Vec<_> = (0..4).map(|seed| scope.spawn(move || run(seed))).collect();
        handles.into_iter().map(|handle| handle.join().unwrap()).collect()
    });
    assert!(alone == together);
}

/// Whatever is asked, an answer comes back.
#[test]
fn nothing_panics() {
    let mut state = 7u64;
    let mut next = move || {
        state = state.wrapping_mul(6364136223846793005).wrapping_add(1442695040888963407);
        (state >> 33) as usize
    };
    let sizes = [0, 1, 2, 3, 9, 23, 24, 511, 512, 513, usize::MAX / 2, usize::MAX];
    let numbers = [0.0, -0.0, 1.0, -1.0, 1e-3, 1e300, f64::MIN_POSITIVE, f64::INFINITY, f64::NAN];
    let mut study = line(24);
    for _ in 0..20_000 {
        let mut size = || sizes[next() % sizes.len()];
        let (a, b, c) = (size(), size(), size());
        let mut number = || numbers[next() % numbers.len()];
        let (x, y) = (number(), number());
        let cells = CellBox { x: (a, b), y: (b, c), z: (c, a) };
        let _ = match next() % 14 {
            0 => study.put_box(cells, Put::Numbers { eps_r: x, mu_r: y, sigma: x }).map(|_| ()),
            1 => {
                let material = Material::plain(x).with_pole(Pole::Debye { delta_eps: x, tau: y });
                let (added, Grid { dt, constants, .. }) = (study.add_material(&material), study.grid());
                assert_eq!(added == Err(Refusal::BadPole), !material.bad_poles(dt, constants).is_empty());
                added.map(|_| ())
            }
            2 => study.set_periodic([x > y, y > x, true]),
            3 => study.set_boundary_lossy(a, b, x),
            4 => {
                study.set_boundary_cpml(&CpmlConfig { thickness: a, order: x, kappa_max: y, ..CpmlConfig::default() }).map(|_| ())
            }
            5 => study.slab_z(a, b),
            6 => study.box_region([a, b, a, b, a, b]),
            7 => study.step(x),
            8 => study.plane_reading(a).map(|_| ()),
            9 => study.build_dispersion(),
            10 => study.reset_fields(),
            11 => study.total_energy().map(|_| ()),
            12 => {
                let found = study.plane(Field::Magnetic, a, b).len() + study.component(Field::Electric, c).len();
                assert!(found <= 2 * 24);
                Ok(())
            }
            _ => {
                let constants = Constants::ALL[a % 2];
                Study::open(&Grid { cells: [a, b, c], pitch: [x, y, x], dt: y, pole_slots: a, constants }).map(|_| ())
            }
        };
    }
}
