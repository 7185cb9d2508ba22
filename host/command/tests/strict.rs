//! `--strict`: every warning is a failure, unless its kind is allowed by name.

mod common;

use cichowiej_command::curve::warnings::Kind;
use common::{Folder, HEAD, with};
use std::collections::BTreeSet;
use std::fs;

const LAYER: &str = "[edge.layer]\naxes = [\"z\"]\nthickness = 10";
const SOURCE: &str = "[source.modulated]\nfrequency = \"10 GHz\"\nwidth = \"80 ps\"\ndelay = \"400 ps\"";
const FREQUENCIES: &str = "frequencies = [\"8 GHz\", \"10 GHz\"]";

fn boxed(cells: &str) -> String {
    format!("[materials.glass]\neps_inf = 4.0\n[[boxes]]\nmaterial = \"glass\"\ncells = {cells}\n[planes]")
}

/// A change of the head, the kind of warning that it brings, and whether that is known before the first step.
fn doubtful() -> Vec<(&'static str, String, &'static str, bool)> {
    let cases = [
        (LAYER, "[edge.conductor]", "no-layer", true),
        ("axes = [\"z\"]", "axes = []", "no-layer", true),
        ("thickness = 10", "thickness = 3", "weak-layer", true),
        ("thickness = 10", "thickness = 10\nalpha_factor = 30", "low-frequency", true),
        ("transmitted = 70", "transmitted = 85", "in-layer", true),
        ("delay = \"400 ps\"", "delay = \"400 ns\"", "no-number", false),
        ("courant = 0.5", "courant = 1.8", "courant", true),
        ("steps = 3000", "steps = 300", "steps", false),
        (SOURCE, "[source.continuous]\nfrequency = \"10 GHz\"\nramp = \"400 ps\"", "endless", true),
        ("steps = 3000", "steps = 300", "gain", false),
        ("eps_inf = 3.0, poles", "eps_inf = 60.0, poles", "phase", false),
        (FREQUENCIES, "frequencies = [\"40 GHz\"]", "faint", true),
        ("eps_inf = 2.0, sigma", "eps_inf = 200.0, sigma", "coarse", true),
        ("periodic = [\"x\", \"y\"]", "periodic = [\"x\"]", "walls", true),
        ("percent = 5", "percent = 10", "moistures", true),
        ("tau = \"4 ps\"", "tau = 9", "slow-pole", true),
        ("tau = \"4 ps\"", "tau = \"16 ps\"", "first-order", true),
        ("[wave.injector]\nk0 = 20", "[wave.box]\ncorners = [0, 0, 0, 0, 20, 75]", "wave-box", true),
    ];
    let mut all: Vec<_> = cases.into_iter().map(|(old, new, kind, before)| (old, new.to_string(), kind, before)).collect();
    all.push(("[planes]", boxed("{ z = [40, 41] }"), "boxes", true));
    all
}

/// The kinds that the first lines name.
fn kinds(text: &str) -> BTreeSet<&str> {
    text.lines().filter_map(|line| line.trim_start_matches("# ").strip_prefix("warning (")?.split([')', ',']).next()).collect()
}

#[test]
fn every_warning_is_a_failure() {
    for (old, new, kind, _) in doubtful() {
        let folder = with(old, &new);
        let (status, out, err) = folder.curve(&[]);
        assert!((status, err.as_str()) == (0, "") && kinds(&out).contains(kind), "{new}: {out}");
        let (status, strict, err) = folder.curve(&["--strict", "--csv", "c.csv"]);
        assert_eq!((status, &strict), (1, &out), "{new}");
        assert!(err.starts_with("cichowiej: --strict: the curve is doubtful") && err.contains(kind), "{new}: {err}");
        // what was asked for is there, with its warnings
        assert_eq!(kinds(&fs::read_to_string(folder.path("c.csv")).unwrap()), kinds(&out), "{new}");
    }
    let (status, _, err) = Folder::new(HEAD).curve(&["--strict"]);
    assert_eq!((status, err.as_str()), (0, ""));
}

/// A part of the sheet's plane needs a grid that is wider than a cell.
#[test]
fn a_sheet_in_part_of_the_grid_is_a_failure() {
    let wide = HEAD.replace("cells = [1, 1, 90]", "cells = [2, 1, 90]").replace("cells = { z", "cells = { x = [0, 1], z");
    let (status, out, err) = Folder::new(&wide).curve(&["--strict"]);
    assert!(status == 1 && kinds(&out).contains("part-sheet") && err.contains("part-sheet"), "{out} {err}");
}

#[test]
fn every_kind_is_tried() {
    let tried: BTreeSet<&str> = doubtful().into_iter().map(|(_, _, kind, _)| kind).chain(["part-sheet"]).collect();
    assert_eq!(tried, Kind::ALL.map(Kind::name).into_iter().collect());
    assert!(Kind::ALL.windows(2).all(|pair| pair[0] < pair[1]));
}

/// No plan for a curve that is not wanted, as far as that is known without a step.
#[test]
fn a_plan_is_strict_too() {
    for (old, new, kind, before) in doubtful() {
        let folder = with(old, &new);
        let (status, out, err) = folder.curve(&["--plan", "parallel"]);
        assert_eq!(
            (status, out.lines().count(), kinds(&err).contains(kind)),
            (0, folder_points(&folder), before),
            "{new}: {err}"
        );
        for plan in ["parallel", "slurm", "list"] {
            let (status, out, err) = folder.curve(&["--plan", plan, "--strict"]);
            let failed = status == 1 && out.is_empty() && kinds(&err).contains(kind) && err.contains("cichowiej: --strict: ");
            assert!(!before || failed, "{new}: {out} {err}");
        }
    }
    let missing = with("thickness = 10", "thickness = 45");
    let (status, out, err) = missing.curve(&["--plan", "list", "--strict"]);
    assert!(status == 1 && out.is_empty() && err.contains("ABSORBING LAYER MISSING ON z"), "{err}");
    let (status, out, err) = Folder::new(HEAD).curve(&["--plan", "slurm", "--strict"]);
    assert!(status == 0 && out.starts_with("#!/bin/sh") && kinds(&err).is_empty(), "{err}");
}

/// Moistures and the empty head; air alone where there are boxes and a reflected plane.
fn folder_points(folder: &Folder) -> usize {
    3 + usize::from(fs::read_to_string(folder.path("head.toml")).unwrap().contains("[[boxes]]"))
}

#[test]
fn a_gathered_curve_is_strict_too() {
    let folder = with(FREQUENCIES, "frequencies = [\"40 GHz\"]");
    for point in ["0", "1", "2"] {
        assert_eq!(folder.curve(&["--point", point]).0, 0);
        let (status, _, err) = folder.curve(&["--point", point, "--strict"]);
        assert!(status == 1 && err.contains("faint"), "{err}");
    }
    assert_eq!(folder.curve(&["--gather"]).0, 0);
    let (status, out, err) = folder.curve(&["--gather", "--strict"]);
    assert!(status == 1 && kinds(&out).contains("faint") && err.contains("faint"), "{err}");
    let names: Vec<String> = kinds(&out).into_iter().flat_map(|kind| ["--allow".to_string(), kind.to_string()]).collect();
    let words: Vec<&str> = ["--gather", "--strict"].into_iter().chain(names.iter().map(String::as_str)).collect();
    assert_eq!(folder.curve(&words).0, 0);
}

/// What is allowed is told as such in table, CSV, picture and page, and what is not allowed is still a failure.
#[test]
fn what_is_allowed_is_told() {
    let folder = with("eps_inf = 2.0, sigma = 0.1", "eps_inf = 10.0, sigma = 0.5");
    let (status, out, err) =
        folder.curve(&["--strict", "--allow", "coarse", "--csv", "c.csv", "--svg", "c.svg", "--html", "c.html"]);
    assert_eq!((status, err.as_str()), (0, ""), "{out}");
    let files = ["c.csv", "c.svg", "c.html"].map(|file| fs::read_to_string(folder.path(file)).unwrap());
    for text in files.iter().chain([&out]) {
        assert!(text.contains("warning (coarse, allowed): "), "{text}");
    }
    let (status, _, err) = folder.curve(&["--strict", "--allow", "faint"]);
    assert!(status == 1 && err.contains("coarse"), "{err}");
    assert_eq!(folder.curve(&["--plan", "list", "--strict", "--allow", "coarse"]).0, 0);
}

/// Neither a layer that is missing nor a value that is no number is anybody's to allow.
#[test]
fn two_things_cannot_be_allowed() {
    let folder = Folder::new(HEAD);
    for words in [&["--strict", "--allow", "no-number"][..], &["--strict", "--allow", "layer"], &["--allow", "coarse"]] {
        assert_eq!(folder.curve(words).0, 2, "{words:?}");
    }
    let missing = with("thickness = 10", "thickness = 45");
    let all: Vec<&str> =
        Kind::ALL.into_iter().filter(|kind| kind.may_be_allowed()).flat_map(|kind| ["--allow", kind.name()]).collect();
    let (status, _, err) = missing.curve(&[&["--strict"], all.as_slice()].concat());
    assert!(status == 1 && err.contains("the absorbing layer is missing"), "{err}");
}

/// With one periodic cell along x and y the limit is the square root of 3: below it the curve is that of a smaller step, above it there is none.
#[test]
fn the_limit_of_the_courant_number_is_the_grids() {
    let numbers = |folder: &Folder| -> Vec<f64> {
        let csv = fs::read_to_string(folder.path("c.csv")).unwrap();
        let row = csv.lines().rfind(|line| line.starts_with("5.0,")).unwrap().to_string();
        row.split(',').map(|number| number.parse().unwrap()).collect()
    };
    let at = |courant: &str| {
        let folder = with("courant = 0.5", &format!("courant = {courant}"));
        let (_, out, _) = folder.curve(&["--csv", "c.csv"]);
        (kinds(&out).contains("courant"), numbers(&folder))
    };
    let ((none, small), (low, large), (high, endless)) = (at("0.5"), at("1.72"), at("1.76"));
    assert!(!none && !low && high);
    assert!((small[1] - large[1]).abs() < 0.05, "{small:?} {large:?}");
    assert!(!endless[1].is_finite(), "{endless:?}");
}

/// At 4 GHz, of which the pulse has little, the field's energy is quiet long before the sums are.
#[test]
fn sums_that_still_move_are_too_few_steps() {
    let faint = HEAD.replace(FREQUENCIES, "frequencies = [\"4 GHz\"]");
    let after = |steps: &str| Folder::new(&faint.replace("steps = 3000", &format!("steps = {steps}"))).curve(&[]).1;
    let (early, late) = (after("1500"), after("3000"));
    assert!(
        early.contains("warning (steps): steps too few: in the last fifth of the run the sums at 4 GHz still moved"),
        "{early}"
    );
    assert!(!kinds(&late).contains("steps"), "{late}");
}

/// A strong pole on a small eps_inf grows far below the limit of air: that is known before the first step, and named.
#[test]
fn a_pole_that_grows_is_warned_of() {
    let old = "eps_inf = 2.0, sigma = 0.1";
    let poles = [
        "eps_inf = 1.0, poles = [{ debye = { delta_eps = 75.0, tau = \"9 ps\" } }]",
        "eps_inf = 1.0, poles = [{ lorentz = { delta_eps = 3.0, omega0 = 8e11, gamma = 1e9 } }]",
    ];
    for new in poles {
        let folder = Folder::new(&HEAD.replace(old, new).replace("courant = 0.5", "courant = 0.99"));
        let (_, out, _) = folder.curve(&[]);
        assert!(out.contains("the field can grow without end in moisture 5 %") && out.contains("NaN"), "{new}: {out}");
        let (status, _, err) = folder.curve(&["--plan", "list", "--strict"]);
        assert!(status == 1 && err.contains("courant"), "{new}: {err}");
    }
}

/// A point by itself tells what it can: that it is no number, and why it is not wanted.
#[test]
fn a_point_that_is_no_number_is_a_failure() {
    let folder = with("courant = 0.5", "courant = 1.9");
    let (status, _, err) = folder.curve(&["--point", "1", "--strict"]);
    assert!(status == 1 && err.contains("\nwarning (no-number): ") && err.contains("--strict: "), "{err}");
    let (status, _, err) = with("steps = 3000", "steps = 300").curve(&["--point", "0", "--strict"]);
    assert!(status == 1 && err.contains("warning (steps): steps too few"), "{err}");
    assert_eq!(Folder::new(HEAD).curve(&["--point", "1", "--strict"]).0, 0);
}

/// What lets next to nothing through is not asked to have come to rest.
#[test]
fn an_opaque_sheet_is_no_matter_of_steps() {
    let (_, out, _) = with("sigma = 0.1", "sigma = 2e5").curve(&[]);
    assert!(!kinds(&out).contains("steps"), "{out}");
}
