//! `cichowiej run` as a person would use it.

#[path = "common/child.rs"]
mod child;

use assert_cmd::cargo::cargo_bin;
use child::{Running, make_pipe, until};
use cichowiej::{CellBox, Constants, CpmlConfig, Grid, Material, MaterialId, Pole, Put, Refusal, Source, Study};
use std::fs;
use std::io::Read;
use std::os::unix::fs::symlink;
use std::path::PathBuf;
use std::process::{Command, Stdio};
use std::thread::sleep;
use std::time::Duration;
use tempfile::{TempDir, tempdir};

/// Every kind of line that answers, and most that do not.
const SCRIPT: &str = "\
# a sheet on a line of cells
size 1 1 90 poles=1
pitch 1mm courant=0.5
periodic xy
edge layer axes=z thickness=12      # behind the wave's region nothing comes back
material paper eps_inf=3.0 sigma=0.1
    pole debye delta_eps=2 tau=9ps
box paper z=40:42
numbers eps_r=1.5 mu_r=1 sigma=0 z=50:52
build
wave injector 20
run 500 modulated frequency=10GHz width=80ps delay=400ps
energy
plane 70
save a.save
run 100
energy
rewind a.save
energy
";

struct Folder(TempDir);

impl Folder {
    fn new(script: &str) -> Self {
        let folder = tempdir().unwrap();
        fs::write(folder.path().join("s.txt"), script).unwrap();
        Self(folder)
    }

    fn path(&self, name: &str) -> PathBuf {
        self.0.path().join(name)
    }

    fn command(&self, words: &[&str]) -> Command {
        let mut command = Command::new(cargo_bin("cichowiej"));
        command.current_dir(self.0.path()).args(["run", "s.txt"]).args(words);
        command
    }

    fn run(&self, words: &[&str]) -> (i32, String, String) {
        let out = self.command(words).output().unwrap();
        let text = |bytes: Vec<u8>| String::from_utf8(bytes).unwrap();
        (out.status.code().unwrap(), text(out.stdout), text(out.stderr))
    }
}

/// The same calls through the library.
fn by_hand(constants: Constants) -> Study {
    let pitch = [1e-3; 3];
    let grid = Grid { cells: [1, 1, 90], pitch, dt: 0.5 * constants.largest_dt(pitch), pole_slots: 1, constants };
    let mut study = Study::open(&grid).unwrap();
    study.set_periodic([true, true, false]).unwrap();
    study.set_boundary_cpml(&CpmlConfig { axes: [false, false, true], thickness: 12, ..CpmlConfig::default() }).unwrap();
    let paper = Material::plain(3.0).with_sigma(0.1).with_pole(Pole::Debye { delta_eps: 2.0, tau: 9.0 * 1e-12 });
    let paper = study.add_material(&paper).unwrap();
    study.put_box(CellBox::planes(40, 42), Put::Library(paper)).unwrap();
    study.put_box(CellBox::planes(50, 52), Put::Numbers { eps_r: 1.5, mu_r: 1.0, sigma: 0.0 }).unwrap();
    study.build_dispersion().unwrap();
    study.injector_z(20).unwrap();
    let source = Source::Modulated { amplitude: 1.0, width: 80.0 * 1e-12, delay: 400.0 * 1e-12, frequency: 10.0 * 1e9 };
    let samples: Vec<f64> = source.samples(0.0, grid.dt, 0).take(500).collect();
    study.run(&samples).unwrap();
    study
}

#[test]
fn a_script_makes_the_librarys_calls() {
    let folder = Folder::new(SCRIPT);
    let (status, out, err) = folder.run(&[]);
    assert_eq!((status, err.as_str()), (0, ""));
    let study = by_hand(Constants::Old);
    assert!(fs::read(folder.path("a.save")).unwrap() == study.save().unwrap());
    let answers: Vec<&str> = out.lines().collect();
    assert_eq!(answers[..4], ["absorbing layer: asked for on z, works on z", "material paper 1", "box paper 2", "numbers 2"]);
    assert_eq!(answers[4], format!("energy {:?}", study.total_energy().unwrap()));
    assert_eq!(answers[5], format!("plane 70 {:?}", study.plane_reading(70).unwrap()));
    assert!(answers[6].starts_with("save a.save ") && answers[6].contains("SHA-256"));
    assert!(answers[7] != answers[4] && answers[8] == answers[4], "{out}");
}

/// The line of the script's energy after its save was run on.
fn run_on(answers: &str) -> &str {
    answers.lines().filter(|line| line.starts_with("energy ")).nth(1).unwrap()
}

/// Ranges are cut to the grid, and one that is empty or past it has no cell; a half space is the box of the library's call.
#[test]
fn what_is_put_into_cells_is_counted() {
    let begun = "size 4 3 2\npitch 1mm courant=0.5\nmaterial m eps_inf=2\n";
    let put = "numbers eps_r=3 mu_r=1 sigma=0 x=1:9 y=0:2 z=1:99\nbox m x=1:9 y=0:2 z=1:99\nbox m x=4:9\nbox m x=2:2\nbox m\nhalfspace m 1\nhalfspace m 2\n";
    let (status, out, err) = Folder::new(&format!("{begun}{put}")).run(&[]);
    assert_eq!((status, err.as_str()), (0, ""));
    assert_eq!(
        out.lines().collect::<Vec<_>>(),
        ["material m 1", "numbers 6", "box m 6", "box m 0", "box m 0", "box m 24", "halfspace m 12", "halfspace m 0"]
    );
    let folder = Folder::new(&format!("{begun}halfspace m 1\nsave a.save\n"));
    assert_eq!(folder.run(&[]).0, 0);
    let mut study = Study::from_save(&fs::read(folder.path("a.save")).unwrap()).unwrap();
    let half = study.save().unwrap();
    study.put_box(CellBox::planes(0, usize::MAX), Put::Library(MaterialId::VACUUM)).unwrap();
    assert!(study.save().unwrap() != half);
    study.assign_material_halfspace_z(MaterialId::numbered(1), 1).unwrap();
    assert!(study.save().unwrap() == half);
}

/// Of the size line; without a word the old ones.
#[test]
fn a_script_names_its_constants() {
    let with = |word: &str| Folder::new(&SCRIPT.replace("poles=1\n", &format!("poles=1 {word}\n")));
    let energy = |out: &str| out.lines().find_map(|line| line.strip_prefix("energy ")?.parse::<f64>().ok()).unwrap();
    let mut energies = Vec::new();
    for (word, constants) in [("", Constants::Old), ("constants=old", Constants::Old), ("constants=2019", Constants::Si2019)] {
        let folder = with(word);
        let (status, out, err) = folder.run(&[]);
        assert_eq!((status, err.as_str()), (0, ""));
        assert!(fs::read(folder.path("a.save")).unwrap() == by_hand(constants).save().unwrap(), "{word}");
        energies.push(energy(&out));
    }
    let moved = (energies[2] / energies[0] - 1.0).abs();
    assert!(energies[0] == energies[1] && moved > 1e-12 && moved < 1e-8, "{energies:?}");
}

/// What is taken up has its own constants, whatever the study before it had; where they are not the old ones it is told.
#[test]
fn a_save_brings_its_constants() {
    let folder = Folder::new(&SCRIPT.replace("poles=1\n", "poles=1 constants=2019\n"));
    let (_, whole, _) = folder.run(&[]);
    fs::write(folder.path("s.txt"), "size 1 1 90\npitch 1mm courant=0.5\nrewind a.save\nrun 100\nenergy\nsave b.save\n").unwrap();
    let (status, out, err) = folder.run(&[]);
    assert_eq!((status, err.as_str(), out.lines().next()), (0, "", Some(run_on(&whole))));
    assert_eq!(Study::from_save(&fs::read(folder.path("b.save")).unwrap()).unwrap().grid().constants, Constants::Si2019);
    fs::write(folder.path("s.txt"), "run 100\nenergy\n").unwrap();
    let told = "from a save of 500 steps, absorbing layer works on z\nconstants of vacuum: 2019";
    assert_eq!(folder.run(&["--from", "a.save"]).1, format!("{told}\n{}\n", run_on(&whole)));
}

/// A save from before there was a choice, and what is written of it now.
#[test]
fn an_older_save_is_taken_up() {
    let older = concat!(env!("CARGO_MANIFEST_DIR"), "/../../oracle/compare/old/poles.save");
    let folder = Folder::new(&format!("rewind {older}\nenergy\nsave a.save\nrun 3\nenergy\n"));
    let (status, rewound, err) = folder.run(&[]);
    assert_eq!((status, err.as_str()), (0, ""));
    assert_eq!(fs::metadata(folder.path("a.save")).unwrap().len(), fs::metadata(older).unwrap().len() + 1);
    fs::write(folder.path("s.txt"), "run 3\nenergy\n").unwrap();
    let [from_old, from_new] = [older, "a.save"].map(|save| folder.run(&["--from", save]));
    assert!(from_old == from_new && from_old.0 == 0 && !from_old.1.contains("constants"), "{from_old:?}");
    assert_eq!(from_old.1.lines().last(), rewound.lines().last());
}

#[test]
fn decimals_read_back_and_hex_has_the_bits() {
    let (folder, words) = (Folder::new(SCRIPT), |line: &str| line.split_whitespace().last().unwrap().to_string());
    let ((_, decimal, _), (_, hex, _)) = (folder.run(&[]), folder.run(&["--hex"]));
    let numbers = |out: &str| -> Vec<String> {
        out.lines().filter(|l| l.starts_with("energy") || l.starts_with("plane")).map(words).collect()
    };
    assert_eq!(numbers(&decimal).len(), 4);
    for (decimal, hex) in numbers(&decimal).iter().zip(numbers(&hex)) {
        assert_eq!(format!("{:016x}", decimal.parse::<f64>().unwrap().to_bits()), hex);
    }
}

#[test]
fn a_saved_study_is_taken_up() {
    let folder = Folder::new(SCRIPT);
    let (_, whole, _) = folder.run(&[]);
    // materials of a saved study go by their numbers
    fs::write(folder.path("s.txt"), "run 100\nenergy\nbox 1 z=60:61\nbox vacuum z=60:61\n").unwrap();
    let (status, out, err) = folder.run(&["--from", "a.save"]);
    assert_eq!((status, err.as_str()), (0, ""));
    let told = "from a save of 500 steps, absorbing layer works on z";
    assert_eq!(out, format!("{told}\n{}\nbox 1 1\nbox vacuum 1\n", run_on(&whole)));
    let (status, _, err) = folder.run(&["--from", "s.txt"]);
    assert!(status == 1 && err.contains("s.txt: refused as 14 BadMark: "), "{err}");
}

/// Each line behind the good beginning, with the line that the message has to name and words that it has to have.
#[test]
fn bad_lines_are_named() {
    let cases = [
        ("frobnicate", 4, "take one of size, pitch"),
        ("size 1 1 9", 4, "no pitch stands behind it"),
        ("size 1 1 9\nenergy", 5, "pitch behind size"),
        ("pitch 1mm dt=1ps", 4, "size stands before pitch"),
        ("size 1 1 9\npitch 1mm", 5, "dt= or courant="),
        ("size 1 1 9\npitch 1GHz dt=1ps", 5, "no unit of a length"),
        ("size 1 1 nine\npitch 1mm dt=1ps", 4, "nz: \"nine\""),
        ("size 1 1 9 constants=new\npitch 1mm dt=1ps", 4, "constants: \"new\" is no set of constants: take old or 2019"),
        ("size 1 1 9 constants=\npitch 1mm dt=1ps", 4, "constants: \"\" is no set"),
        ("size 1 1 9 constants=old constants=2019\npitch 1mm dt=1ps", 4, "constants= here, or it stands twice"),
        ("pole debye delta_eps=1 tau=1ps", 4, "behind its material"),
        ("material m", 4, "eps_inf= is missing"),
        ("material vacuum eps_inf=1", 4, "taken"),
        ("material m eps_inf=1 colour=2", 4, "colour="),
        ("material m eps_inf=1\npole lorenz", 5, "take lorentz, drude or debye"),
        ("box glass z=1:2", 4, "no material \"glass\""),
        ("box vacuum z=12", 4, "no range"),
        ("numbers eps_r=1 mu_r=1", 4, "sigma= is missing"),
        ("edge soft", 4, "periodic, conductor, lossy or layer"),
        ("edge layer", 4, "axes= is missing"),
        ("edge layer axes=xx", 4, "names no axes"),
        ("periodic w", 4, "names no axes"),
        ("wave slab 3", 4, "k1 is missing"),
        ("wave round 3", 4, "slab, injector or box"),
        ("run many", 4, "the number of steps"),
        ("run 3 noise", 4, "no source"),
        ("run 3 gaussian width=1ps", 4, "delay= is missing"),
        ("run 3 table nowhere.txt", 4, "nowhere.txt: "),
        ("energy 3", 4, "one word too many"),
        ("rewind nowhere.save", 4, "nowhere.save: No such file"),
        ("save nowhere/a.save", 4, "nowhere/a.save: there is no folder nowhere: make it first"),
        ("save", 4, "a file is missing"),
        ("save 'a.save", 4, "a quote is not closed"),
        ("save a.save\\", 4, "a backslash ends the line"),
        ("save a.save b.save", 4, "\"b.save\" is one word too many"),
        ("run 3 table", 4, "a file of numbers is missing"),
        ("material m eps_inf=1\nsave a.save\nrewind a.save\nbox m", 7, "no material \"m\""),
        ("material m eps_inf=1\nsize 1 1 9\npitch 1mm dt=1ps\nhalfspace m 3", 7, "no material \"m\""),
    ];
    for (lines, line, words) in cases {
        let (status, out, err) = Folder::new(&format!("size 1 1 24\npitch 1mm courant=0.5\nenergy\n{lines}\n")).run(&[]);
        assert!(status == 1 && err.contains(&format!("s.txt:{line}: ")) && err.contains(words), "{lines}: {err}");
        // before the first call
        assert_eq!(out, "", "{lines}");
    }
}

const BEGINNING: &str = "size 1 1 9\npitch 1mm courant=0.5\nenergy\n";

/// Names with blanks, = and #, quoted as in a shell; from a file with other line ends, and a mark before its first line.
#[test]
fn names_of_files_are_a_shells_words() {
    let lines = [
        "save a=b.save",
        "save 'with blank.save'",
        "save\t\"it's \\\"so\\\".save\"",
        "save back\\ slash.save # don't",
        "save '#1.save'",
        "save ~/home.save",
        "save $x*.save",
        "rewind ~/home.save",
        "rewind a=b.save",
        "run 3 table 'amplitude=1 2.txt'",
        "save last.save",
    ];
    for end in ["\n", "\r\n"] {
        let folder = Folder::new(&format!("\u{feff}{BEGINNING}{}\r", lines.join("\n")).replace('\n', end));
        fs::create_dir(folder.path("h")).unwrap();
        fs::write(folder.path("amplitude=1 2.txt"), "1 2 3\n").unwrap();
        let out = folder.command(&[]).env("HOME", folder.path("h")).output().unwrap();
        assert_eq!((out.status.code(), String::from_utf8(out.stderr).unwrap().lines().count()), (Some(0), 1));
        for name in ["a=b", "with blank", "it's \"so\"", "back slash", "#1", "h/home", "$x*", "last"] {
            assert!(folder.path(&format!("{name}.save")).is_file(), "{name} {end:?}");
        }
    }
    let folder = Folder::new(&format!("{BEGINNING}save ~/a.save\n"));
    let out = folder.command(&[]).env_remove("HOME").output().unwrap();
    let err = String::from_utf8(out.stderr).unwrap();
    assert!(out.status.code() == Some(1) && out.stdout.is_empty(), "{err}");
    assert!(err.contains("s.txt:4: ~/a.save: there is no HOME in the environment"), "{err}");
}

#[test]
fn tables_that_are_none_are_named() {
    let folder = Folder::new("");
    fs::write(folder.path("empty.txt"), " \n").unwrap();
    fs::write(folder.path("latin.txt"), b"1.0 \xe9").unwrap();
    fs::write(folder.path("words.txt"), "1.0 two").unwrap();
    for (file, words) in [
        ("empty.txt", "there is no number in it"),
        ("latin.txt", "not UTF-8 from byte 4 on"),
        ("words.txt", "\"two\" is no number of its kind"),
        ("/dev/zero", "longer than a table may be, 256 MiB"),
        ("/dev/null", "there is no number in it"),
    ] {
        fs::write(folder.path("s.txt"), format!("{BEGINNING}run 3 table {file}\n")).unwrap();
        let (status, out, err) = folder.run(&[]);
        assert!(status == 1 && out.is_empty() && err.contains(&format!("s.txt:4: {file}: {words}")), "{file}: {err}");
    }
}

/// Whatever it is called: nothing was computed when it is told.
#[test]
fn no_save_takes_an_inputs_place() {
    let folder = Folder::new("");
    let table = "1 2 3\n";
    fs::write(folder.path("t.txt"), table).unwrap();
    fs::create_dir(folder.path("sub")).unwrap();
    symlink("s.txt", folder.path("script-link")).unwrap();
    symlink("../t.txt", folder.path("sub/table-link")).unwrap();
    let own = "this is the script that runs: take another name";
    let read = "this is a table that the script reads: take another name";
    for (file, words) in [
        ("s.txt", own),
        ("./s.txt", own),
        ("sub/../s.txt", own),
        ("script-link", own),
        ("t.txt", read),
        ("sub/table-link", read),
        ("sub", "this is a folder: name a file"),
    ] {
        let script = format!("{BEGINNING}save {file}\nrun 3 table t.txt\n");
        fs::write(folder.path("s.txt"), &script).unwrap();
        let (status, out, err) = folder.run(&[]);
        assert!(status == 1 && out.is_empty() && err.contains(&format!("s.txt:4: {file}: {words}")), "{file}: {err}");
        assert_eq!([script.as_str(), table], ["s.txt", "t.txt"].map(|name| fs::read_to_string(folder.path(name)).unwrap()));
    }
}

/// What a line before saves is there to rewind to, by whatever name; devices are written to.
#[test]
fn a_rewind_finds_what_a_line_before_saves() {
    let folder = Folder::new("");
    symlink("new.save", folder.path("link")).unwrap();
    for (lines, status) in [
        ("save a.save\nrewind ./a.save\n", 0),
        ("save link\nrewind new.save\n", 0),
        ("save /dev/null\nsave /dev/stdout\n", 0),
        ("rewind later.save\nsave later.save\n", 1),
        ("save b.save\nrewind sub/b.save\n", 1),
    ] {
        fs::write(folder.path("s.txt"), format!("{BEGINNING}{lines}")).unwrap();
        let out = folder.command(&[]).output().unwrap();
        let err = String::from_utf8_lossy(&out.stderr);
        assert!(out.status.code() == Some(status) && out.stdout.is_empty() == (status == 1), "{lines}: {err}");
        assert_eq!(err.contains(", and no line before saves it"), status == 1, "{lines}: {err}");
    }
}

/// Each refusal that a script can meet, with its line, number, name and sentence.
#[test]
fn refusals_end_with_1() {
    let many: String = (0..16).map(|i| format!("material m{i} eps_inf=2\n")).collect();
    let cases = [
        ("size 1 1 513\npitch 1mm dt=1ps", 4, 1),
        ("size 1 1 9\npitch 0mm dt=1ps", 5, 2),
        ("size 1 1 9 poles=5\npitch 1mm dt=1ps", 4, 3),
        (many.as_str(), 19, 5),
        ("material m eps_inf=1\npole debye delta_eps=1 tau=1ps\npole debye delta_eps=1 tau=1ps", 4, 6),
        ("box 1 z=1:2", 4, 7),
        ("material m eps_inf=1\npole debye delta_eps=1 tau=1ps\nbuild\nmaterial n eps_inf=1\nbox n\nrun 1", 9, 8),
        ("wave slab 3 24", 4, 9),
        ("edge lossy thickness=3 order=9 sigma_max=1", 4, 10),
        ("run 1\nrun 4294967295", 5, 11),
        ("plane 24", 4, 17),
    ];
    for (lines, line, number) in cases {
        let (status, _, err) = Folder::new(&format!("size 1 1 24 poles=1\npitch 1mm courant=0.5\nbuild\n{lines}\n")).run(&[]);
        let refusal = Refusal::numbered(number).unwrap();
        assert!(status == 1 && err.contains(&format!("s.txt:{line}: refused as {refusal}")), "{lines}: {err}");
    }
}

/// Document 02, S-2: the pole's own line, its number, its kind and what it has.
#[test]
fn poles_that_cannot_be_stepped_are_named_with_their_lines() {
    let dt = 0.5 * Constants::Old.largest_dt([1e-3; 3]);
    let other = "take other numbers for it, or another time step: a1, a2 or a3 of its recursion is not finite";
    let cases = [
        ("debye delta_eps=2 tau=0", "Debye with delta_eps = 2.0 and tau = 0.0 s", "a relaxation time of 0? take one above 0"),
        ("debye delta_eps=2 tau=0ps", "Debye with delta_eps = 2.0 and tau = 0.0 s", "a relaxation time of 0? take one above 0"),
        ("debye delta_eps=2 tau=1e-321", "Debye with delta_eps = 2.0 and tau = 1e-321 s", other),
        ("debye delta_eps=2 tau=nan", "Debye with delta_eps = 2.0 and tau = NaN s", other),
        (
            "lorentz delta_eps=1 omega0=1e200 gamma=0",
            "Lorentz with delta_eps = 1.0, omega0 = 1e200 rad/s and gamma = 0.0 rad/s",
            other,
        ),
        ("drude omega_p=1e200rad/s gamma=1", "Drude with omega_p = 1e200 rad/s and gamma = 1.0 rad/s", other),
    ];
    for (pole, words, advice) in cases {
        let good = "size 1 1 24 poles=2\npitch 1mm courant=0.5\nmaterial paper eps_inf=3\npole debye delta_eps=1 tau=1ps\n";
        let (status, out, err) = Folder::new(&format!("{good}# the other\n\n  pole {pole}\nenergy\n")).run(&[]);
        let told = format!("pole 1 of material \"paper\", {words}, cannot be stepped with dt = {dt:?} s: {advice}");
        assert_eq!((status, out.as_str(), err), (1, "", format!("cichowiej: s.txt:7: refused as 19 BadPole: {told}\n")));
    }
}

/// By the time step and the constants of the study that stands; 6 comes before 19, and 19 before 5.
#[test]
fn poles_are_judged_by_the_study_that_stands() {
    let tried = |script: &str| Folder::new(script).run(&[]);
    let on_the_edge =
        format!("material m eps_inf=1\npole debye delta_eps=1.7e308 tau={:?}\n", f64::from_bits(0x3DA269973FB889A1));
    let opened = |poles: usize, set: &str, dt: &str| format!("size 1 1 9 poles={poles} constants={set}\npitch 1mm dt={dt}\n");
    let (status, out, _) = tried(&(opened(1, "2019", "1") + &on_the_edge + "material n eps_inf=2\n"));
    assert_eq!((status, out.as_str()), (0, "material m 1\nmaterial n 2\n"));
    let (status, _, err) = tried(&(opened(1, "old", "1") + &on_the_edge));
    assert!(status == 1 && err.contains("s.txt:4: refused as 19 BadPole: pole 0 of material \"m\""), "{err}");
    // taken in the first study, refused in the second, whose steps are longer
    let short = "material m eps_inf=1\npole debye delta_eps=1 tau=1e-300\n";
    let (status, out, err) = tried(&(opened(1, "old", "1ps") + short + &opened(1, "old", "1e9") + short));
    assert!(status == 1 && out == "material m 1\n" && err.contains("s.txt:8: refused as 19 BadPole: "), "{err}");
    let bad = "material m eps_inf=1\npole debye delta_eps=1 tau=0\n";
    let (_, _, err) = tried(&(opened(0, "old", "1ps") + bad));
    assert!(err.contains(&format!("s.txt:3: refused as {}", Refusal::TooManyPoles)), "{err}");
    let many: String = (1..16).map(|i| format!("material m{i} eps_inf=2\n")).collect();
    let (_, _, err) = tried(&(opened(1, "old", "1ps") + &many + bad));
    assert!(err.contains("s.txt:19: refused as 19 BadPole: pole 0 of material \"m\""), "{err}");
    let (_, _, err) = tried(&(opened(1, "old", "1ps") + &many + &bad.replace("tau=0", "tau=1ps")));
    assert!(err.contains(&format!("s.txt:18: refused as {}", Refusal::Full)), "{err}");
}

/// Slips that are no faults are told on standard error, with their line.
#[test]
fn doubtful_lines_are_warned_of() {
    let cases = [
        ("size 1 1 9\npitch 1mm courant=2\nrun 3\n", 3, "the Courant number is 2.000"),
        (
            "size 1 1 9 poles=1\npitch 1mm courant=0.5\nmaterial m eps_inf=2\npole debye delta_eps=1 tau=1ps\nbox m\nrun 3\n",
            6,
            "after build only",
        ),
        ("size 1 1 9\npitch 1mm courant=0.5\nrun 3 gaussian width=1ps delay=1ps\n", 3, "no wave's region"),
    ];
    for (script, line, words) in cases {
        let (status, _, err) = Folder::new(script).run(&[]);
        assert!(status == 0 && err.contains(&format!("warning: s.txt:{line}: ")) && err.contains(words), "{script}: {err}");
    }
    // a mark before the first line is no word
    assert_eq!(Folder::new("\u{feff}size 1 1 9\npitch 1mm courant=0.5\n").run(&[]).0, 0);
}

/// Whatever a line has changed since the last run: axes, wave, materials with their poles.
#[test]
fn a_time_step_is_judged_at_each_run() {
    let grown = |lines: &str| {
        let (status, _, err) =
            Folder::new(&format!("size 4 4 16 poles=1\npitch 1mm courant=1.01\nrun 1\n{lines}\nrun 1\n")).run(&[]);
        assert_eq!(status, 0, "{err}");
        err
    };
    assert_eq!(grown("energy"), "");
    assert!(grown("periodic xy").contains("s.txt:5: the Courant number is 1.010: above 1.0"), "{}", grown("periodic xy"));
    let pole = "material m eps_inf=1\npole drude omega_p=9e11 gamma=1e9\nbox m z=3:4";
    assert_eq!(grown(&format!("{pole}\nnumbers eps_r=1 mu_r=1 sigma=0")).matches("can grow").count(), 0);
    assert!(grown(&format!("{pole}\nbuild")).contains("s.txt:8: the Courant number is 1.010: above 0."), "{}", grown(pole));
    assert!(
        grown("numbers eps_r=1 mu_r=0.25 sigma=0 z=3:4").contains("above 0.5"),
        "{}",
        grown("numbers eps_r=1 mu_r=0.25 sigma=0 z=3:4")
    );
}

/// By the axes that are periodic when it runs, and once a study; also where a study is taken up.
#[test]
fn a_time_step_is_judged_by_the_axes() {
    let (periodic, cube) = ("size 1 1 90\npitch 1mm courant=C\nperiodic xy\n", "size 8 8 8\npitch 1mm courant=C\n");
    let cases = [
        (periodic, "1.7", None),
        (periodic, "1.8", Some("1.732")),
        (cube, "1", None),
        (cube, "1.02", None),
        (cube, "1.05", Some("1.026")),
        ("size 8 8 8\npitch 1mm courant=C\nedge periodic\n", "1.02", Some("1.000")),
    ];
    for (script, courant, limit) in cases {
        let script = script.replace('C', courant);
        let line = script.lines().count() + 1;
        let folder = Folder::new(&format!("{script}run 1\nrun 1\nsave a.save\nrewind a.save\nenergy\nrun 1\n"));
        let (number, name) = (courant.parse::<f64>().unwrap(), &folder.path("s.txt"));
        let told = |line: usize| {
            let words = |limit| format!("the Courant number is {number:.3}: above {limit} the field can grow without end");
            limit.map_or(String::new(), |limit| format!("warning: s.txt:{line}: {}\n", words(limit)))
        };
        let (status, _, err) = folder.run(&[]);
        assert_eq!((status, err), (0, told(line) + &told(line + 5)), "{script}");
        fs::write(name, "energy\nrun 1\nrun 1\n").unwrap();
        let (status, _, err) = folder.run(&["--from", "a.save"]);
        assert_eq!((status, err), (0, told(2)), "{script}");
    }
    // what is never stepped grows no more than it can
    assert_eq!(Folder::new("size 8 8 8\npitch 1mm courant=9\nenergy\n").run(&[]).2, "");
}

/// What begins a word is for people, what stands in one is not.
#[test]
fn names_may_have_the_mark_of_a_comment_in_them() {
    let folder = Folder::new("size 1 1 9\npitch 1mm courant=0.5\nsave run#2.save #no more words\n");
    assert_eq!(folder.run(&[]).0, 0);
    assert!(folder.path("run#2.save").exists());
}

#[test]
fn a_missing_layer_is_told() {
    let (status, out, _) = Folder::new("size 21 30 30\npitch 1mm courant=0.5\nedge layer axes=xy\n").run(&[]);
    assert_eq!(status, 0);
    assert!(out.starts_with("ABSORBING LAYER MISSING ON x: asked for on x, y, works on y"), "{out}");
}

#[test]
fn sixteen_materials_all_walls_and_waves() {
    let materials: String = (1..16)
        .map(|i| {
            format!(
                "material m{i} eps_inf={i}\npole lorentz delta_eps=1 omega0=1e11 gamma=1e9\npole drude omega_p=1e9 gamma=1e9\n"
            )
        })
        .collect();
    let boxes: String = (1..16).map(|i| format!("box m{i} x={i}:{} y=0:3\n", i + 1)).collect();
    let walls = "edge periodic\nedge conductor\nperiodic z\nedge lossy thickness=2 order=3 sigma_max=0.5S/m\nedge layer axes=x thickness=5\n";
    let waves = "wave slab 2 5\nrun 3 gaussian width=10ps delay=20ps\nwave injector 3\nrun 3 continuous frequency=9.4GHz ramp=1ns\nwave box 7 9 1 3 1 4\nrun 3 table t.txt\nhalfspace m3 6\nreset\nperiodic none\nenergy\n";
    let folder =
        Folder::new(&format!("size 24 4 8 poles=2\npitch 1mm 2mm 1.5mm dt=1ps\n{materials}{boxes}build\n{walls}{waves}"));
    fs::write(folder.path("t.txt"), "1.0 2e-3\n-0.5\n").unwrap();
    let (status, out, err) = folder.run(&[]);
    assert_eq!((status, err.as_str()), (0, ""), "{out}");
    assert!(out.contains("material m15 15\n") && out.ends_with("energy 0.0\n"), "{out}");
}

#[test]
fn ctrl_c_ends_a_run() {
    let folder = Folder::new("size 1 1 90\npitch 1mm courant=0.5\nrun 4000000000\nsave late.save\n");
    let mut child = folder.command(&[]).stderr(Stdio::null()).spawn().unwrap();
    sleep(Duration::from_millis(300));
    assert!(Command::new("kill").args(["-INT", &child.id().to_string()]).status().unwrap().success());
    assert_eq!(child.wait().unwrap().code(), Some(130));
    assert!(!folder.path("late.save").exists());
}

/// At each place where a pipe is read, and nobody writes to it.
#[test]
fn ctrl_c_ends_what_waits_for_a_pipe() {
    let folder = Folder::new("");
    make_pipe(&folder.path("pipe"));
    for (script, words) in [
        ("rewind pipe\n", &[][..]),
        ("save a.save\nrewind pipe\nsave late.save\n", &[]),
        ("run 3 table pipe\nsave late.save\n", &[]),
        ("save late.save\n", &["--from", "pipe"]),
    ] {
        fs::write(folder.path("s.txt"), format!("{BEGINNING}{script}")).unwrap();
        let child = Running::new(&mut folder.command(words));
        child.waits();
        child.interrupt();
        assert_eq!(child.end(), (Some(130), "cichowiej: interrupted; no file is left half written\n".into()), "{script}");
        assert!(!folder.path("late.save").exists());
    }
}

/// Longer than a pipe holds.
const TO_A_PIPE: &str = "size 2 2 400\npitch 1mm courant=0.5\nsave pipe\nsave late.save\n";

#[test]
fn a_write_that_has_begun_is_the_last_one_after_ctrl_c() {
    let folder = Folder::new(TO_A_PIPE);
    make_pipe(&folder.path("pipe"));
    let child = Running::new(&mut folder.command(&[]));
    let mut pipe = fs::File::open(folder.path("pipe")).unwrap();
    // it holds what has no room in the pipe
    child.waits();
    child.interrupt_and_wait();
    let mut bytes = Vec::new();
    pipe.read_to_end(&mut bytes).unwrap();
    assert!(Study::from_save(&bytes).is_ok());
    assert_eq!(child.end().0, Some(130));
    assert!(!folder.path("late.save").exists());
}

#[test]
fn a_second_ctrl_c_ends_at_once() {
    let folder = Folder::new(TO_A_PIPE);
    make_pipe(&folder.path("pipe"));
    // open, and never read
    let _pipe = fs::File::options().read(true).write(true).open(folder.path("pipe")).unwrap();
    let mut child = Running::new(&mut folder.command(&[]));
    child.waits();
    until("it does not end", || {
        child.interrupt();
        sleep(Duration::from_millis(20));
        child.has_ended().then_some(())
    });
    assert_eq!(child.end(), (Some(130), "cichowiej: interrupted at once\n".into()));
}
