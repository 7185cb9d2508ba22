//! The command as a person would use it.

mod common;

use cichowiej::Constants;
use common::{Folder, HEAD, with};
use std::fs;

#[test]
fn a_good_head_gives_table_csv_picture_and_page() {
    let folder = Folder::new(HEAD);
    let (status, out, err) = folder.curve(&["--csv", "c.csv", "--svg", "c.svg", "--html", "c.html", "--jobs", "1"]);
    assert_eq!((status, err.as_str()), (0, ""));
    assert!(out.starts_with("absorbing layer: asked for on z, works on z\n"), "{out}");
    let csv = fs::read_to_string(folder.path("c.csv")).unwrap();
    assert!(csv.starts_with("# absorbing layer: asked for on z, works on z\n"), "{csv}");
    let rows: Vec<&str> = csv.lines().filter(|line| !line.starts_with('#')).collect();
    assert_eq!(rows.len(), 3);
    assert!(rows[1].starts_with("5.0,-"), "{csv}");
    let svg = fs::read_to_string(folder.path("c.svg")).unwrap();
    assert!(svg.contains("<svg") && svg.contains("A test") && svg.contains("works on z"));
    let page = fs::read_to_string(folder.path("c.html")).unwrap();
    assert!(page.contains("<svg") && page.contains("eps_inf = 2.0") && page.contains("SHA-256"));
    assert!(!page.contains("http") || page.matches("http").count() == page.matches("http://www.w3.org").count());
}

/// Which constants a curve has stands where its grid's numbers stand; that they are not the old ones, in table and picture too.
#[test]
fn a_curve_says_its_constants() {
    let made = |folder: Folder| {
        let (status, out, err) = folder.curve(&["--csv", "c.csv", "--svg", "c.svg", "--html", "c.html"]);
        assert_eq!((status, err.as_str()), (0, ""));
        let [csv, svg, page] = ["c.csv", "c.svg", "c.html"].map(|file| fs::read_to_string(folder.path(file)).unwrap());
        (out, csv, svg, page)
    };
    let named = |name: &str| made(with("courant = 0.5", &format!("courant = 0.5\nconstants = \"{name}\"")));
    let ((out, csv, svg, page), old, new) = (made(Folder::new(HEAD)), named("old"), named("2019"));
    let rows = |csv: &str| -> Vec<String> { csv.lines().filter(|line| !line.starts_with('#')).map(String::from).collect() };
    assert!(out == old.0 && rows(&csv) == rows(&old.1) && svg == old.2, "the old ones are the usual ones");
    assert!(csv.contains(", constants of vacuum: old\n") && page.contains(", constants of vacuum: old<"), "{csv}");
    assert!(!out.contains("constants") && !svg.contains("constants"));
    assert!(new.0.starts_with("absorbing layer: asked for on z, works on z\nconstants of vacuum: 2019\n"), "{}", new.0);
    assert!(new.1.contains(", constants of vacuum: 2019\n") && new.2.contains("constants of vacuum: 2019"), "{}", new.1);
    assert!(new.3.contains(", constants of vacuum: 2019<"));
}

#[test]
fn as_many_threads_as_one_give_the_same_bytes() {
    let folder = Folder::new(HEAD);
    for jobs in ["1", "4"] {
        assert_eq!(folder.curve(&["--jobs", jobs, "--csv", jobs]).0, 0);
    }
    assert_eq!(fs::read(folder.path("1")).unwrap(), fs::read(folder.path("4")).unwrap());
}

/// The accident: the layer asked for on an axis that is too thin for it.
#[test]
fn a_missing_layer_cannot_be_missed() {
    let folder = with("thickness = 10", "thickness = 45");
    let (status, out, _) = folder.curve(&["--csv", "c.csv", "--svg", "c.svg", "--html", "c.html"]);
    assert_eq!(status, 0);
    assert!(out.starts_with("ABSORBING LAYER MISSING ON z"), "{out}");
    for file in ["c.csv", "c.svg", "c.html"] {
        let text = fs::read_to_string(folder.path(file)).unwrap();
        assert!(text.contains("ABSORBING LAYER MISSING ON z"), "{file}");
    }
    assert_eq!(folder.curve(&["--strict"]).0, 1);
}

/// Each change of the head, with the line and the key that the message has to name, and words that it has to have.
fn refused(cases: &[(&str, &str, usize, &str, &str)]) {
    for (old, new, line, key, word) in cases {
        let (status, out, err) = with(old, new).curve(&[]);
        assert_eq!((status, out.as_str()), (1, ""), "{new}: {err}");
        assert!(err.contains(&format!("head.toml:{line}: {key}: ")) && err.contains(word), "{new}: {err}");
    }
}

#[test]
fn bad_lines_are_named() {
    refused(&[
        ("courant = 0.5", "courrant = 0.5", 7, "grid.courrant", "unknown field"),
        ("pitch = \"1 mm\"", "pitch = \"1 GHz\"", 6, "grid.pitch", "\"GHz\" is no unit of a length"),
        ("pitch = \"1 mm\"", "pitch = \"one mm\"", 6, "grid.pitch", "not a number with a unit"),
        ("pitch = \"1 mm\"", "pitch = [1e-3, \"1 mm\", true]", 6, "grid.pitch[2]", "a length"),
        ("pitch = \"1 mm\"", "pitch = [1, 2]", 6, "grid.pitch", "three"),
        ("cells = [1, 1, 90]", "cells = [1, 90]", 5, "grid.cells", "array of length 3"),
        ("courant = 0.5", "courant = 0.5\ndt = \"1 ps\"", 4, "grid", "one of the two"),
        (
            "courant = 0.5",
            "courant = 0.5\nconstants = \"new\"",
            8,
            "grid.constants",
            "\"new\" is no set of constants: take old or 2019",
        ),
        ("courant = 0.5", "courant = 0.5\nconstants = 2019", 8, "grid.constants", "by its name, \"old\" or \"2019\""),
        ("[wave.injector]", "[wave.rejector]", 13, "wave.rejector", "no such kind: take one of slab, injector, box"),
        ("k0 = 20", "k0 = 20\nk1 = 30", 15, "wave.injector.k1", "unknown field"),
        ("k0 = 20", "k0 = 20\n[wave.slab]\nk0 = 3\nk1 = 4", 13, "wave", "not two"),
        ("axes = [\"z\"]", "axes = [\"y\", \"z\"]", 2, "periodic", "edge.layer.axes"),
        ("frequencies = [\"8 GHz\", \"10 GHz\"]", "frequencies = [\"8 GHz\", \"8 mm\"]", 26, "gauge.frequencies[1]", "\"mm\""),
        ("frequencies = [\"8 GHz\", \"10 GHz\"]", "frequencies = []", 26, "gauge.frequencies", "one or more"),
        ("frequencies = [\"8 GHz\", \"10 GHz\"]", "frequencies = [0]", 26, "gauge.frequencies", "larger than 0"),
        ("steps = 3000", "steps = -1", 29, "run.steps", "-1"),
        ("steps = 3000", "steps = 3e3", 29, "run.steps", "expected a whole number, 0 or more"),
        ("axes = [\"z\"]", "axes = \"z\"", 10, "edge.layer.axes", "expected a list in brackets"),
        ("steps = 3000", "steps = 0", 29, "run.steps", "1 or more"),
        ("tau = \"4 ps\"", "tua = \"4 ps\"", 40, "sheet.moisture[1].material.poles[0].debye.tua", "unknown field"),
        ("[planes]", "[boxes]\n[planes]", 21, "boxes", "list in brackets"),
        ("[planes]", "[[boxes]]\nmaterial = \"glass\"\ncells = {}\n[planes]", 22, "boxes[0].material", "no material \"glass\""),
        ("percent = 5", "percent = nan", 35, "sheet.moisture[0].percent", "from 0 to 100"),
        ("percent = 5", "", 34, "sheet.moisture[0]", "missing field `percent`"),
    ]);
}

/// What would give a curve that is none.
#[test]
fn places_that_give_no_curve_are_named() {
    refused(&[
        ("transmitted = 70", "transmitted = 41", 22, "planes.transmitted", "behind the sheet, at 42 or above"),
        ("[wave.injector]", "[wave.slab]\nk1 = 60", 23, "planes.transmitted", "below the wave's k1 = 60"),
        ("reflected = 15", "reflected = 20", 23, "planes.reflected", "below the wave's k0 = 20"),
        ("cells = { z = [40, 42] }", "cells = { z = [10, 42] }", 32, "sheet.cells", "k0 = 20"),
        ("cells = { z = [40, 42] }", "cells = { z = [42, 42] }", 32, "sheet.cells", "has to have a cell"),
    ]);
}

/// Slips that would give the curve of something else.
#[test]
fn values_that_no_head_has_are_named() {
    let boxed =
        |cells: &str| format!("[materials.glass]\neps_inf = 4.0\n[[boxes]]\nmaterial = \"glass\"\ncells = {cells}\n[planes]");
    refused(&[
        ("[planes]", &boxed("{ z = [95, 99] }"), 25, "boxes[0].cells", "z = [95, 99] has to have a cell and to end at 90"),
        ("[planes]", &boxed("{ z = [34, 30] }"), 25, "boxes[0].cells", "z = [34, 30]"),
        ("cells = { z = [40, 42] }", "cells = { x = [0, 3], z = [40, 42] }", 32, "sheet.cells", "x = [0, 3]"),
        ("eps_inf = 2.0", "eps_inf = 0.5", 36, "sheet.moisture[0].material.eps_inf", "1 or more"),
        ("sigma = 0.1", "sigma = -0.1", 36, "sheet.moisture[0].material.sigma", "0 or more"),
        ("delta_eps = 2.0", "delta_eps = -2.0", 40, "sheet.moisture[1].material.poles[0].debye.delta_eps", "0 or more"),
        (
            "tau = \"4 ps\"",
            "tau = \"-4 ps\"",
            40,
            "sheet.moisture[1].material.poles[0].debye.tau",
            "-4e-12 has to be a finite number, clearly above 0",
        ),
        ("tau = \"4 ps\"", "tau = inf", 40, "sheet.moisture[1].material.poles[0].debye.tau", "inf has to be a finite number"),
        (
            "tau = \"4 ps\"",
            "tau = 1e-320",
            40,
            "sheet.moisture[1].material.poles[0].debye.tau",
            "1e-320 has to be a finite number",
        ),
        ("sigma = 0.1", "mu_r = 0", 36, "sheet.moisture[0].material.mu_r", "0.0 has to be a finite number, clearly above 0"),
        ("pitch = \"1 mm\"", "pitch = \"1,0 mm\"", 6, "grid.pitch", "decimal point"),
        ("width = \"80 ps\"", "width = \"-80 ps\"", 18, "source.modulated.width", "larger than 0"),
        ("delay = \"400 ps\"", "delay = inf", 19, "source.modulated.delay", "0 or more"),
    ]);
}

/// Numbers that no layer has, as they are told of materials.
#[test]
fn layers_that_are_none_are_named() {
    let cases = [
        ("order = -1", "order", "-1 has to be 0 or more"),
        ("order = nan", "order", "NaN has to be 0 or more"),
        ("order = inf", "order", "inf has to be 0 or more"),
        ("kappa_max = 0.5", "kappa_max", "0.5 has to be 1 or more"),
        ("kappa_max = -5", "kappa_max", "-5 has to be 1 or more"),
        ("kappa_max = inf", "kappa_max", "inf has to be 1 or more"),
        ("alpha_factor = -0.2", "alpha_factor", "-0.2 has to be 0 or more"),
        ("alpha_factor = nan", "alpha_factor", "NaN has to be 0 or more"),
        ("alpha_order = -1", "alpha_order", "-1 has to be 0 or more"),
        ("alpha_order = inf", "alpha_order", "inf has to be 0 or more"),
        ("target_reflection = 0", "target_reflection", "0 has to be above 0 and below 1"),
        ("target_reflection = 1", "target_reflection", "1 has to be above 0 and below 1"),
        ("target_reflection = -1e-8", "target_reflection", "has to be above 0 and below 1"),
        ("target_reflection = nan", "target_reflection", "NaN has to be above 0 and below 1"),
        ("target_reflection = inf", "target_reflection", "inf has to be above 0 and below 1"),
        ("sigma_scale = -1", "sigma_scale", "-1 has to be 0 or more"),
        ("sigma_scale = inf", "sigma_scale", "inf has to be 0 or more"),
    ];
    for (line, key, words) in cases {
        refused(&[("thickness = 10", &format!("thickness = 10\n{line}"), 12, &format!("edge.layer.{key}"), words)]);
    }
    let layer = "[edge.layer]\naxes = [\"z\"]\nthickness = 10";
    for (number, words) in [("-1", "-1 has"), ("nan", "NaN has"), ("inf", "inf has"), ("\"-2 S/m\"", "-2 has")] {
        let lossy = format!("[edge.lossy]\nthickness = 3\norder = 2\nsigma_max = {number}");
        refused(&[(layer, &lossy, 12, "edge.lossy.sigma_max", &format!("{words} to be 0 or more"))]);
    }
    // the smallest that are taken
    let weakest = "thickness = 10\norder = 0\nkappa_max = 1\nalpha_factor = 0\nalpha_order = 0\nsigma_scale = 0";
    let (status, out, err) = with("thickness = 10", weakest).curve(&[]);
    assert!(status == 0 && out.contains("the absorbing layer is weak") && err.is_empty(), "{out}{err}");
}

#[test]
fn the_engines_refusals_name_the_line_whose_call_met_them() {
    let many: String = (0..16).map(|i| format!("[materials.m{i:02}]\neps_inf = 2.0\n")).collect();
    refused(&[
        ("cells = [1, 1, 90]", "cells = [1, 1, 900]", 4, "grid", "1 BadSize"),
        ("pitch = \"1 mm\"", "pitch = -1", 4, "grid", "2 BadSpacing"),
        ("courant = 0.5", "courant = nan", 4, "grid", "2 BadSpacing"),
        ("courant = 0.5", "courant = 0.5\npole_slots = 5", 4, "grid", "3 BadStudy"),
        ("courant = 0.5", "courant = 0.5\npole_slots = 0", 39, "sheet.moisture[1]", "6 TooManyPoles"),
        ("[planes]", &format!("{many}[planes]"), 51, "materials.m15", "5 Full"),
        ("[wave.injector]", "[wave.slab]\nk1 = 90", 13, "wave", "9 BadRegion"),
        ("transmitted = 70", "transmitted = 90", 22, "planes.transmitted", "17 NoSuchPlane"),
        ("steps = 3000", "steps = 4294967296", 29, "run.steps", "11 SpentClock"),
    ]);
    let lossy = "[edge.lossy]\nthickness = 3\norder = 9\nsigma_max = 1";
    refused(&[("[edge.layer]\naxes = [\"z\"]\nthickness = 10", lossy, 9, "edge", "10 BadOrder")]);
}

/// Document 02, S-2. What the head does not take for a slip the engine judges, with the head's time step and constants.
#[test]
fn poles_that_cannot_be_stepped_are_named() {
    let key = "sheet.moisture[1].material.poles[0]";
    let (debye, tau) = ("{ debye = { delta_eps = 2.0, tau = \"4 ps\" } }", "tau = \"4 ps\"");
    let told = |words: &str| format!("refused as 19 BadPole: pole 0 of the sheet at moisture 10 %, {words}");
    let dt = 0.5 * Constants::Old.largest_dt([1e-3; 3]);
    let instant = told(&format!(
        "Debye with delta_eps = 2.0 and tau = 0.0 s, cannot be stepped with dt = {dt:?} s: a relaxation time of 0? take one above 0\n"
    ));
    let other = format!(
        "cannot be stepped with dt = {dt:?} s: take other numbers for it, or another time step: a1, a2 or a3 of its recursion is not finite\n"
    );
    let of_debye = told(&format!("Debye with delta_eps = 1e308 and tau = 1e-300 s, {other}"));
    let of_lorentz = told(&format!("Lorentz with delta_eps = 2.0, omega0 = 1e200 rad/s and gamma = 0.0 rad/s, {other}"));
    let of_drude = told(&format!("Drude with omega_p = inf rad/s and gamma = 1.0 rad/s, {other}"));
    let lorentz = "{ lorentz = { delta_eps = 2.0, omega0 = 1e200, gamma = 0 } }";
    refused(&[
        (tau, "tau = 0", 40, &format!("{key}.debye.tau"), &instant),
        (tau, "tau = \"0 ps\"", 40, &format!("{key}.debye.tau"), &instant),
        (debye, "{ debye = { delta_eps = 1e308, tau = 1e-300 } }", 40, key, &of_debye),
        (debye, lorentz, 40, key, &of_lorentz),
        (debye, "{ drude = { omega_p = inf, gamma = 1 } }", 40, key, &of_drude),
        // the second of two, on its own line
        (
            debye,
            &format!("\n  {debye},\n  {lorentz},\n"),
            42,
            "sheet.moisture[1].material.poles[1]",
            "19 BadPole: pole 1 of the sheet",
        ),
        (tau, "tau = -0.0", 40, &format!("{key}.debye.tau"), "a relaxation time of 0?"),
    ]);
}

/// The refusals in the engine's order: 2 and 6 before 19, 19 before 5.
#[test]
fn a_pole_that_cannot_be_stepped_has_its_place_among_the_refusals() {
    let bad = |head: &str| head.replace("tau = \"4 ps\"", "tau = 0");
    let first = |head: String, words: &str| {
        let (status, out, err) = Folder::new(&head).curve(&[]);
        assert!((status, out.as_str()) == (1, "") && err.contains(words), "{err}");
    };
    let with = |new: &str| HEAD.replace("courant = 0.5", new);
    first(bad(&with("courant = nan")), "head.toml:4: grid: refused as 2 BadSpacing");
    first(bad(&with("courant = 0.5\npole_slots = 0")), "head.toml:39: sheet.moisture[1]: refused as 6 TooManyPoles");
    let many: String = (0..16).map(|i| format!("[materials.m{i:02}]\neps_inf = 2.0\n")).collect();
    let last = "poles = [{ debye = { delta_eps = 1.0, tau = 1 } }]\n";
    let full = HEAD.replace("[planes]", &format!("{many}{last}[planes]"));
    first(full.clone(), "head.toml:51: materials.m15: refused as 5 Full");
    let words = "head.toml:53: materials.m15.poles[0].debye.tau: refused as 19 BadPole: pole 0 of material \"m15\", Debye with ";
    first(full.replace("tau = 1 ", "tau = 0 "), words);
}

/// A pole that only the longer time step cannot step.
#[test]
fn poles_are_judged_with_the_heads_time_step() {
    for (dt, is_bad) in [("1e8", false), ("1e9", true)] {
        let head = HEAD.replace("tau = \"4 ps\"", "tau = 1e-300").replace("courant = 0.5", &format!("dt = {dt}"));
        let (status, _, err) = Folder::new(&head).curve(&["--plan", "list"]);
        assert_eq!((status, err.contains("poles[0]: refused as 19 BadPole: ")), (i32::from(is_bad), is_bad), "{dt}: {err}");
    }
}

#[test]
fn what_is_no_toml_is_named_with_its_line() {
    let cases = [
        ("steps = 3000", "steps = = 3000", ":29: "),
        ("courant = 0.5", "courant = 0.5\ncourant = 0.6", ":8: duplicate key: `courant`"),
        ("[run]", "[grid]\n[run]", ":28: "),
        ("[run]\nsteps = 3000\n", "", ": missing field `run`"),
        ("title = \"A test\"", "title = \"A test", ":1: "),
    ];
    for (old, new, words) in cases {
        let (status, out, err) = with(old, new).curve(&[]);
        assert!((status, out.as_str()) == (1, "") && err.contains(&format!("head.toml{words}")), "{new}: {err}");
    }
}

/// The example's paper with a slip in it.
#[test]
fn slips_in_the_paper_are_named() {
    let example = fs::read_to_string(concat!(env!("CARGO_MANIFEST_DIR"), "/../../examples/office-80.toml")).unwrap();
    let cases = [
        (
            "density = \"0.998 g/cm3\"",
            "density = \"-0.998 g/cm3\"",
            "sheet.paper.water.density: it has to be a number larger than 0",
        ),
        ("grammage = \"76 g/m2\"", "grammage = 76", "numbers without a unit are in kg/m2"),
        (
            "material = { eps_inf = 6.5 }",
            "material = { eps_inf = 6.5, mu_r = 2 }",
            "sheet.paper.fibre.material.mu_r: the mixture knows no permeability",
        ),
        (
            "caliper = \"104 um\"",
            "caliper = \"100 um\"",
            "it is 100.0000 um, and the sheet's 5 cells along z are 104.0000 um thick: take a pitch of 20.0000 um",
        ),
        ("temperature = 20", "temperature = 293", "it is in °C"),
        (
            "tau = \"9.36 ps\"",
            "tau = 0",
            "sheet.paper.water.material.poles[0].debye.tau: refused as 19 BadPole: pole 0 of water, in the sheet at moisture 2 %, Debye with delta_eps = 74.6 and tau = 0.0 s",
        ),
        (
            "material = { eps_inf = 6.5 }",
            "material = { eps_inf = 6.5, poles = [{ lorentz = { delta_eps = 0, omega0 = 1e200, gamma = 0 } }, { drude = { omega_p = 1e200, gamma = 0 } }] }",
            "sheet.paper.fibre.material.poles[1]: refused as 19 BadPole: pole 1 of fibre, in the sheet at moisture 2 %, Drude with omega_p = 1e200 rad/s",
        ),
    ];
    for (old, new, words) in cases {
        assert_eq!(example.matches(old).count(), 1, "{old}");
        let (status, out, err) = Folder::new(&example.replace(old, new)).curve(&[]);
        assert!((status, out.as_str()) == (1, "") && err.contains("head.toml:") && err.contains(words), "{new}: {err}");
    }
}

/// A curve that is doubtful says why, in table, CSV and page.
#[test]
fn doubtful_curves_are_warned_of() {
    let cases = [
        ("steps = 3000", "steps = 300", "take more steps"),
        ("courant = 0.5", "courant = 1.8", "the Courant number is 1.800: above 1.732 the field grows without end"),
        ("eps_inf = 2.0, sigma = 0.1", "eps_inf = 200.0, sigma = 0.1", "cells a wavelength in moisture 5 %"),
        ("periodic = [\"x\", \"y\"]", "periodic = [\"x\"]", "not both periodic"),
        ("transmitted = 70", "transmitted = 85", "in the absorbing layer"),
        ("thickness = 10", "thickness = 10\nalpha_factor = 30", "absorbs little below"),
        ("frequencies = [\"8 GHz\", \"10 GHz\"]", "frequencies = [9.4]", "next to nothing at 9.4 Hz"),
        ("frequencies = [\"8 GHz\", \"10 GHz\"]", "frequencies = [\"40 GHz\"]", "next to nothing at 40 GHz"),
        ("thickness = 10", "thickness = 3", "the absorbing layer is weak"),
        ("thickness = 10", "thickness = 10\nsigma_scale = 0.05", "the absorbing layer is weak"),
        ("axes = [\"z\"]", "axes = []", "no absorbing layer is asked for along z"),
        (
            "[edge.layer]\naxes = [\"z\"]\nthickness = 10",
            "[edge.lossy]\nthickness = 10\norder = 3\nsigma_max = 1",
            "no absorbing layer is asked for along z",
        ),
        ("percent = 5", "percent = 10", "the moisture 10 % stands twice"),
        ("tau = \"4 ps\"", "tau = 9", "a number without a unit is in s"),
        ("delay = \"400 ps\"", "delay = \"400 ns\"", "no numbers"),
        ("tau = \"4 ps\"", "tau = \"16 ps\"", "loss is computed"),
        ("thickness = 10", "thickness = 10\nkappa_max = 100", "the absorbing layer is weak"),
        ("[wave.injector]", "[wave.slab]\nk1 = 85", "one of the wave's, stands in the absorbing layer"),
        (
            "[source.modulated]\nfrequency = \"10 GHz\"\nwidth = \"80 ps\"\ndelay = \"400 ps\"",
            "[source.continuous]\nfrequency = \"10 GHz\"\nramp = \"400 ps\"",
            "does not end",
        ),
    ];
    for (old, new, word) in cases {
        let folder = with(old, new);
        let (status, out, err) = folder.curve(&["--csv", "c.csv", "--html", "c.html", "--svg", "c.svg"]);
        assert_eq!((status, err.as_str()), (0, ""), "{new}");
        let files =
            ["c.csv", "c.html", "c.svg"].map(|file| fs::read_to_string(folder.path(file)).unwrap().replace("</text>", ""));
        assert!(out.contains("warning (") && out.contains(word), "{new}: {out}");
        assert!(files[..2].iter().all(|text| text.contains(word)) && files[2].contains("warning"), "{new}");
    }
    let (_, out, _) =
        Folder::new(&HEAD.replace("percent = 10", "percent = 0.1").replace("percent = 5", "percent = 0.05")).curve(&[]);
    assert!(out.contains("warning (moistures): every moisture is below 1 %"), "{out}");
    let (_, out, _) = Folder::new(HEAD).curve(&[]);
    assert!(!out.contains("warning"), "{out}");
}
