//! What a curve's stepping takes beside one call of `cichowiej_run` for the same steps: the samples of the source, the calls in between, the planes read and summed
//! up, the energy looked at. Both by turns, in one run; the best of the rounds, and the median.

use cichowiej_command::curve::plan::{Plan, Point};
use cichowiej_command::curve::study::Watch;
use cichowiej_command::head::Head;
use std::error::Error;
use std::fs;
use std::hint::black_box;
use std::path::Path;
use std::sync::atomic::AtomicBool;
use std::time::Instant;

const ROUNDS: usize = 7;

fn seconds(run: impl FnOnce()) -> f64 {
    let begun = Instant::now();
    run();
    begun.elapsed().as_secs_f64()
}

fn curve(plan: &Plan, point: &Point) {
    let watch = Watch { stop: &AtomicBool::new(false), moved: &|_| () };
    assert!(plan.run(point, &watch).is_ok_and(|reading| black_box(reading).is_some()));
}

fn run(plan: &Plan, point: &Point) {
    let Ok((mut study, _)) = plan.open(point) else { panic!("it does not open") };
    let samples: Vec<f64> = plan.source.samples(0.0, plan.grid.dt, 0).take(plan.steps).collect();
    assert_eq!(study.run(&samples), Ok(()));
    black_box(study);
}

fn best_and_median(mut times: Vec<f64>) -> (f64, f64) {
    times.sort_by(f64::total_cmp);
    (times[0], times[times.len() / 2])
}

/// The wettest sheet of a head.
fn row(name: &str, text: &str) -> Result<String, Box<dyn Error>> {
    let head = Head::parse(text).map_err(|trouble| trouble.located(name, text))?;
    let plan = Plan::new(&head).map_err(|trouble| trouble.located(name, text))?;
    let point = plan.points.last().ok_or("a head without points")?;
    let (mut curves, mut runs) = (Vec::new(), Vec::new());
    for round in 0..ROUNDS {
        let mut both = [(true, 0.0), (false, 0.0)];
        both.rotate_left(round % 2);
        for (is_curve, time) in &mut both {
            *time = seconds(|| if *is_curve { curve(&plan, point) } else { run(&plan, point) });
        }
        for (is_curve, time) in both {
            if is_curve { curves.push(time) } else { runs.push(time) }
        }
    }
    let each = 1e9 / (plan.grid.cells.iter().product::<usize>() * plan.steps) as f64;
    let ((curve, curve_median), (run, run_median)) = (best_and_median(curves), best_and_median(runs));
    Ok(format!(
        "| {name}, a sample every {} steps | {:.1} ({:.1}) | {:.1} ({:.1}) | {:.2} | 1.15 |",
        plan.stride(),
        each * curve,
        each * curve_median,
        each * run,
        each * run_median,
        curve / run
    ))
}

/// The same head with a continuous wave, whose highest frequency cannot be told.
fn continuous(text: &str) -> Result<String, Box<dyn Error>> {
    let (before, rest) = text.split_once("[source.").ok_or("a head without a source")?;
    let (_, after) = rest.split_once("\n\n").ok_or("a head that ends in its source")?;
    Ok(format!("{before}[source.continuous]\nfrequency = \"5.8 GHz\"\nramp = \"700 ps\"\n\n{after}"))
}

fn main() -> Result<(), Box<dyn Error>> {
    let examples = Path::new(env!("CARGO_MANIFEST_DIR")).join("../../examples");
    let read = |name: &str| fs::read_to_string(examples.join(format!("{name}.toml")));
    println!(
        "a curve's stepping, in ns for a cell and step\n\n| head | curve | one run | ratio | target, at most |\n|---|---|---|---|---|"
    );
    println!("{}", row("office-80", &read("office-80")?)?);
    let board = read("board-coarse")?;
    println!("{}", row("board-coarse", &board)?);
    println!("{}", row("board-coarse with a continuous wave", &continuous(&board)?)?);
    println!("{}", row("the same at a Courant number of 0.99", &continuous(&board)?.replace("courant = 0.5", "courant = 0.99"))?);
    Ok(())
}
