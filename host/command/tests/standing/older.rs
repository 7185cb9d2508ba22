//! Saves of a library that took poles which cannot be stepped (document 02, S-2): whole, and refused all the same.

use crate::child::Running;
use crate::place::Place;
use cichowiej::{CellBox, Constants, Grid, MATERIAL_LENGTH, Material, MaterialId, Pole, Put, Study, pole_place};
use cichowiej_command::digest::sha256;
use std::fs;

/// A study with a material of one Debye pole, whose polarization has moved.
fn stepped(cells: [usize; 3]) -> Study {
    let (pitch, constants) = ([1e-3; 3], Constants::Old);
    let grid = Grid { cells, pitch, dt: 0.5 * constants.largest_dt(pitch), pole_slots: 1, constants };
    let mut study = Study::open(&grid).unwrap();
    let wet = Material::plain(3.0).with_pole(Pole::Debye { delta_eps: 2.0, tau: 8e-12 });
    let wet = study.add_material(&wet).unwrap();
    study.put_box(CellBox::planes(2, 4), Put::Library(wet)).unwrap();
    study.build_dispersion().unwrap();
    study.injector_z(1).unwrap();
    study.run(&[1.0, 2.0, 3.0]).unwrap();
    study
}

/// Where material 1 begins in the study's save, which is this one.
fn material_at(study: &Study, save: &[u8]) -> usize {
    let material = study.material(MaterialId::numbered(1)).unwrap().bytes();
    let found: Vec<usize> = (0..save.len()).filter(|at| save[*at..].starts_with(&material)).collect();
    assert_eq!(found.len(), 1);
    found[0]
}

/// The save with a tau of 0 in its pole, and where its material begins.
fn instant(study: &Study) -> (Vec<u8>, usize) {
    let mut save = study.save().unwrap();
    let at = material_at(study, &save);
    // behind the pole's tag and its delta_eps
    let tau = at + pole_place(0) + 9;
    save[tau..tau + 8].fill(0);
    (save, at)
}

/// A folder whose one save has these bytes, under the SHA-256 of others, with the note of the study.
fn folder(study: &Study, name_of: &[u8], bytes: &[u8]) -> (Place, String) {
    let place = Place::new();
    fs::write(place.path("good.save"), study.save().unwrap()).unwrap();
    let good = place.good(&["keep", "good.save", "--label", "wet"]).trim().to_string();
    let id = sha256(name_of);
    fs::remove_file(place.kept(&good, ".save")).unwrap();
    fs::rename(place.kept(&good, ".toml"), place.path("standing").join(format!("{id}.toml"))).unwrap();
    fs::write(place.path("standing").join(format!("{id}.save")), bytes).unwrap();
    fs::write(place.path("a.save"), bytes).unwrap();
    fs::write(place.path("rewind.script"), "rewind a.save\n").unwrap();
    (place, id)
}

const WHOLE: &str = ": whole, but refused as 15 BadRecord: ";

#[test]
fn a_whole_save_with_such_a_pole_is_told_from_a_damaged_one() {
    let study = stepped([1, 1, 9]);
    let (save, _) = instant(&study);
    let (place, id) = folder(&study, &save, &save);
    let pole = format!(
        "{WHOLE}pole 0 of material 1, Debye with delta_eps = 2.0 and tau = 0.0 s, cannot be stepped with dt = {:?} s (19 BadPole); an older library took it, ",
        study.grid().dt
    );
    let (status, out, _) = place.run(&["verify"]);
    assert!(status == 0 && out.starts_with(&format!("standing/{id}.save{pole}")), "{out}");
    assert!(out.lines().next().unwrap().ends_with("with the pole mended (a relaxation time of 0? take one above 0)"), "{out}");
    assert_eq!(out.lines().skip(1).collect::<Vec<_>>(), ["1 save, 1 whole with a pole that cannot be stepped, 0 damaged"]);
    let listed = place.good(&["list"]);
    assert!(listed.ends_with("  3 steps  wet  (pole 0 of material 1 cannot be stepped: 19 BadPole)\n"), "{listed}");
    let before = place.files();
    for words in [&["show", &id][..], &["resume", &id, "two.script"], &["compare", &id, &id]] {
        let err = place.bad(words);
        assert!(err.starts_with(&format!("cichowiej: standing/{id}.save{pole}")), "{err}");
    }
    for words in [&["keep", "a.save"][..], &["run", "two.script", "--from", "a.save"], &["run", "rewind.script"]] {
        let err = place.bad(words);
        assert!(err.contains(&format!("a.save{pole}")), "{words:?}: {err}");
    }
    assert!(place.files() == before);
    // its note is held to it all the same
    place.edit(&id, "steps = 3", "steps = 4");
    let (status, out, _) = place.run(&["verify"]);
    assert!(status == 1 && out.contains(".toml: steps is 4 here and 3 in the save\n"), "{out}");
    assert!(out.ends_with("\n1 save, 1 whole with a pole that cannot be stepped, 1 damaged\n"), "{out}");
    // a list without the note
    fs::remove_file(place.kept(&id, ".toml")).unwrap();
    assert!(place.good(&["list"]).ends_with("  3 steps  (no note)  (pole 0 of material 1 cannot be stepped: 19 BadPole)\n"));
}

/// What is damaged beside the pole is told as damaged: under the name of the whole save, and under its own SHA-256 where the engine finds it.
#[test]
fn a_damaged_save_with_such_a_pole_stays_a_damaged_one() {
    let study = stepped([1, 1, 9]);
    let (save, at) = instant(&study);
    let changed = |at: usize, byte: u8| {
        let mut bytes = save.clone();
        assert_ne!(bytes[at], byte);
        bytes[at] = byte;
        bytes
    };
    let behind = at + MATERIAL_LENGTH;
    assert_eq!(&save[behind..behind + 2], b"CI");
    let too = |refusal: &str| Some(format!("; and it is damaged too: but for that refused as {refusal}: "));
    let cases = [
        ("another eps_inf", changed(at + 7, 0), None),
        ("a pole of no kind", changed(at + pole_place(0), 7), Some(".save: refused as 15 BadRecord: take another copy".into())),
        ("a byte in a place that is not counted", changed(at + pole_place(1), 1), too("15 BadRecord")),
        ("another mark behind the materials", changed(behind, b'X'), too("14 BadMark")),
        ("cut off", save[..save.len() - 1].to_vec(), too("13 Short")),
        ("cut off behind the materials", save[..behind].to_vec(), too("13 Short")),
        ("a byte too many", [&save[..], b"!"].concat(), too("16 Trailing")),
        ("a pole slot less", changed(20, 0), too("15 BadRecord")),
    ];
    for (what, bytes, words) in cases {
        for name_of in [Some(&save), words.as_ref().map(|_| &bytes)].into_iter().flatten() {
            let (place, id) = folder(&study, name_of, &bytes);
            let (status, out, _) = place.run(&["verify"]);
            assert!(status == 1 && out.ends_with("\n1 save, 1 damaged\n") && !out.contains(WHOLE), "{what}: {out}");
            // at ML's place, before what is wrong behind it
            assert!(out.starts_with(&format!("standing/{id}.save: refused as 15 BadRecord: ")), "{what}: {out}");
            assert!(words.as_ref().is_none_or(|words| out.contains(words)), "{what}: {out}");
            assert_eq!(out.contains(" and not its name"), *name_of == save, "{what}: {out}");
            // what is wrong is no older library's doing
            assert!(!out.contains("older library"), "{what}: {out}");
            assert!(place.good(&["list"]).ends_with("  wet\n"), "{what}");
            assert!(!place.bad(&["show", &id]).contains(WHOLE), "{what}");
            assert!(words.is_none() || !place.bad(&["keep", "a.save"]).contains(WHOLE), "{what}");
        }
    }
}

/// One that a library wrote which took such poles; it is older than the choice of constants too.
#[test]
fn a_save_of_an_older_library_is_whole() {
    let path = concat!(env!("CARGO_MANIFEST_DIR"), "/../../oracle/compare/old/nan.save");
    let (place, save) = (Place::new(), fs::read(path).unwrap());
    let id = sha256(&save);
    fs::create_dir(place.path("standing")).unwrap();
    fs::write(place.path("standing").join(format!("{id}.save")), save).unwrap();
    let pole =
        "pole 0 of material 1, Debye with delta_eps = NaN and tau = 3.0 s, cannot be stepped with dt = 0.25 s (19 BadPole)";
    let (status, out, _) = place.run(&["verify"]);
    assert!(status == 0 && out.starts_with(&format!("standing/{id}.save{WHOLE}{pole}")), "{out}");
    assert!(out.ends_with("\n1 save, 1 whole with a pole that cannot be stepped, 0 damaged\n"), "{out}");
    assert!(place.bad(&["keep", path]).contains(&format!("nan.save{WHOLE}{pole}")));
}

/// To judge it a second time takes no more.
#[test]
fn such_a_save_takes_no_more_memory_than_another() {
    let study = stepped([512, 2, 100]);
    let (save, _) = instant(&study);
    let (place, _) = folder(&study, &save, &save);
    for word in ["verify", "list"] {
        let saves = Running::new(&mut place.command(&[word])).peak() as f64 / save.len() as f64;
        assert!(saves > 1.0 && saves < 2.5, "{word}: {saves:.2} times the save's {} bytes", save.len());
    }
}
