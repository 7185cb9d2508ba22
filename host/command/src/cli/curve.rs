//! `cichowiej curve`.

use super::interrupt::Interrupt;
use super::{Failure, Input, print};
use crate::cluster::Points;
use crate::cluster::script::{Commands, Kind as PlanKind};
use crate::curve::plan::{Plan, Point};
use crate::curve::study::{Reading, Watch};
use crate::curve::warnings::{self, Kind, Warning};
use crate::curve::{Curve, told};
use crate::digest::program;
use crate::head::Head;
use crate::head::trouble::Trouble;
use crate::memory::{Room, in_bytes};
use crate::output::{page, picture, table};
use crate::paths::{check_folder, resolved};
use cichowiej::{Layer, write_whole};
use indicatif::{ProgressBar, ProgressStyle};
use std::io::{self, IsTerminal, Write};
use std::path::{Path, PathBuf};
use std::process::ExitCode;
use std::sync::atomic::AtomicBool;

#[derive(clap::Args)]
#[command(after_help = "Example: cichowiej curve examples/office-80.toml --html curve.html --strict\n\n\
    On a cluster:\n  \
    cichowiej curve HEAD.toml --plan slurm > job.sh\n  \
    sbatch --wait job.sh\n  \
    cichowiej curve HEAD.toml --gather --html curve.html\n\n\
    Exit status: 0; 1 for bad input, a refusal of the engine, a missing point or, with --strict, a warning that is not allowed; 2 for misuse; 130 after Ctrl-C")]
pub struct Arguments {
    /// The head's file
    #[arg(value_name = "HEAD.toml")]
    head: PathBuf,
    /// Write the table as CSV
    #[arg(long, value_name = "FILE", conflicts_with_all = ["plan", "point"])]
    csv: Option<PathBuf>,
    /// Write the picture as SVG
    #[arg(long, value_name = "FILE", conflicts_with_all = ["plan", "point"])]
    svg: Option<PathBuf>,
    /// Write a page with curve, table and every input
    #[arg(long, value_name = "FILE", conflicts_with_all = ["plan", "point"])]
    html: Option<PathBuf>,
    /// Studies at a time, or fewer where the memory is short; as many as there are cores if not given
    #[arg(long, value_name = "N", conflicts_with = "part", value_parser = clap::value_parser!(u16).range(1..))]
    jobs: Option<u16>,
    /// End with status 1 where the absorbing layer does not work on an axis that was asked for, and at every warning
    #[arg(long)]
    strict: bool,
    /// Let a kind of warning pass with --strict, by the name that it has in brackets; it is told all the same
    #[arg(long, value_name = "NAME", value_parser = allowed_kind, requires = "strict")]
    allow: Vec<Kind>,
    /// Print the commands that make the points, each for itself, in any order and on any machine
    #[arg(long, value_name = "KIND", group = "part")]
    plan: Option<PlanKind>,
    /// Run one point alone and write its reading into the points' folder; 0 is the empty head
    #[arg(long, value_name = "K", group = "part")]
    point: Option<usize>,
    /// Make the curve from the readings in the points' folder
    #[arg(long, group = "part")]
    gather: bool,
    /// The folder that the points' readings are in; if not given, HEAD.points beside HEAD.toml
    #[arg(long, value_name = "DIR", requires = "part")]
    points: Option<PathBuf>,
}

fn allowed_kind(name: &str) -> Result<Kind, String> {
    let found = Kind::named(name).filter(|kind| kind.may_be_allowed());
    let names = || Kind::ALL.into_iter().filter(|kind| kind.may_be_allowed()).map(Kind::name).collect::<Vec<_>>().join(", ");
    found.ok_or_else(|| format!("take one of {}", names()))
}

pub fn run(arguments: &Arguments) -> Result<ExitCode, Failure> {
    let input = Input::read(&arguments.head)?;
    let located = |trouble: Trouble| input.located(&trouble);
    let head = Head::parse(&input.text).map_err(located)?;
    let plan = Plan::new(&head).map_err(located)?;
    let job = Job { arguments, input: &input, plan: &plan };
    let folder = arguments.points.clone().unwrap_or_else(|| arguments.head.with_extension("points"));
    let points = Points { plan: &plan, digest: &input.digest, folder: &folder };
    match (arguments.plan, arguments.point, arguments.gather) {
        (Some(kind), ..) => job.print_commands(&points, kind),
        (_, Some(number), _) => job.run_point(&points, number),
        (.., true) => job.gather(&points),
        _ => job.whole(),
    }
}

/// What the words ask for, with the head read.
struct Job<'a> {
    arguments: &'a Arguments,
    input: &'a Input,
    plan: &'a Plan<'a>,
}

impl Job<'_> {
    fn located(&self, trouble: Trouble) -> String {
        self.input.located(&trouble)
    }

    /// What there is for studies. One that has no room is not begun: the system would end it.
    fn room(&self) -> Result<Room, String> {
        let (each, room) = (self.plan.grid.memory(), Room::here());
        let free = in_bytes(room.least());
        let short = || format!("a study takes {}, and {free} are free: take fewer cells, or another machine", in_bytes(each));
        room.holds(each).then_some(room).ok_or_else(short)
    }

    /// Where the layer works, every study having been opened once.
    fn checked(&self) -> Result<Option<Layer>, String> {
        self.room()?;
        self.plan.check().map_err(|trouble| self.located(trouble))
    }

    fn commands(&self, points: &Points) -> Result<Commands, String> {
        Commands::new(&self.arguments.head, points.folder)
    }

    /// The curve, all of it here.
    fn whole(&self) -> Result<ExitCode, Failure> {
        check_outputs(self.arguments, [])?;
        let cores = || std::thread::available_parallelism().map_or(1, usize::from);
        let all = self.plan.points.len();
        let at_a_time = self.at_a_time(all, self.arguments.jobs.map_or_else(cores, usize::from).min(all))?;
        let layer = self.checked()?;
        print(&format!("{}\n", told(layer)))?;
        let interrupt = Interrupt::heard()?;
        let _orderly = interrupt.orderly();
        let readings = readings(self.plan, at_a_time, interrupt.asked())?;
        let done = self.finish(&readings.map_err(|trouble| self.located(trouble))?.ok_or(Failure::Interrupted)?);
        // files that were being written have been brought to their end
        interrupt.check().and(done)
    }

    /// The curve from what was computed elsewhere. Nothing is printed before all of it is there.
    fn gather(&self, points: &Points) -> Result<ExitCode, Failure> {
        check_outputs(self.arguments, points.paths())?;
        let layer = self.checked()?;
        let readings = points.gather(&self.commands(points)?)?;
        print(&format!("{}\n", told(layer)))?;
        self.finish(&readings)
    }

    /// Table and files; what is told of the layer has been printed.
    fn finish(&self, readings: &[Reading]) -> Result<ExitCode, Failure> {
        let title = self.plan.head.title.clone().unwrap_or_else(|| format!("Curve of {}", self.input.name));
        let mut curve = Curve::new(self.plan, title, readings);
        warnings::allow(&mut curve.warnings, &self.arguments.allow);
        print(&table::text(&curve))?;
        write_files(self.arguments, &curve, self.input)?;
        self.judge(curve.layer, &curve.warnings)
    }

    /// What is known before the first step, those allowed marked.
    fn doubts(&self, layer: Option<Layer>) -> Vec<Warning> {
        let mut found = warnings::before(self.plan, layer);
        warnings::allow(&mut found, &self.arguments.allow);
        found
    }

    /// With --strict a missing layer is a failure, and so is every warning that is not allowed.
    fn judge(&self, layer: Option<Layer>, warnings: &[Warning]) -> Result<ExitCode, Failure> {
        let missing = layer.is_some_and(|layer| !layer.is_whole());
        let mut names: Vec<&str> =
            warnings.iter().filter(|warning| !warning.allowed).map(|warning| warning.kind.name()).collect();
        names.dedup();
        match (self.arguments.strict, missing, names.as_slice()) {
            (false, ..) | (true, false, []) => Ok(ExitCode::SUCCESS),
            (true, true, _) => Err(Failure::Message("--strict: the absorbing layer is missing".into())),
            (true, false, names) => {
                Err(Failure::Message(format!("--strict: the curve is doubtful; its warnings say why: {}", names.join(", "))))
            }
        }
    }

    /// Standard output has the commands; of layer and warnings a person is told where these are not for a person. With --strict there is no plan for a curve that is
    /// not wanted.
    fn print_commands(&self, points: &Points, kind: PlanKind) -> Result<ExitCode, Failure> {
        if !self.arguments.head.is_file() {
            return Err(Failure::Message(format!("{}: the commands name it, and this is no file: take one", self.input.name)));
        }
        let layer = self.checked()?;
        let doubts = self.doubts(layer);
        let text = self.commands(points)?.text(self.plan, kind);
        let first: String =
            [told(layer)].into_iter().chain(doubts.iter().map(Warning::to_string)).map(|line| line + "\n").collect();
        let judged = self.judge(layer, &doubts);
        tell(&self.studies(self.plan.points.len()));
        if kind == PlanKind::List && judged.is_ok() {
            print(&(first + &text))?;
        } else {
            // the gathered curve tells it again
            let _ = io::stderr().write_all(first.as_bytes());
            judged.as_ref().map_or(Ok(()), |_| print(&text))?;
        }
        judged
    }

    /// Tells what so many studies take, and answers how many of those asked for are run at a time.
    fn at_a_time(&self, all: usize, asked: usize) -> Result<usize, String> {
        let room = self.room()?;
        let fit = room.fits(asked, self.plan.grid.memory()).max(1);
        let few = if fit < asked { format!(": {} are free", in_bytes(room.least())) } else { String::new() };
        let together = if all > 1 { format!(", {fit} at a time{few}") } else { String::new() };
        tell(&format!("{}{together}", self.studies(all)));
        Ok(fit)
    }

    /// So many, and what each of them takes.
    fn studies(&self, count: usize) -> String {
        let each = in_bytes(self.plan.grid.memory());
        if count == 1 { format!("1 study of {each}") } else { format!("{count} studies of {each} each") }
    }

    /// One point, which fails with --strict as its curve would, as far as it shows by itself.
    fn run_point(&self, points: &Points, number: usize) -> Result<ExitCode, Failure> {
        let last = self.plan.points.len().saturating_sub(1);
        let point = self.plan.points.get(number);
        let point = point.ok_or_else(|| format!("{}: there is no point {number}: it has 0 to {last}", self.input.name))?;
        self.at_a_time(1, 1)?;
        let (_, layer) = self.plan.open(point).map_err(|trouble| self.located(trouble))?;
        points.make_folder()?;
        print(&format!("{}\n", told(layer)))?;
        let interrupt = Interrupt::heard()?;
        let _orderly = interrupt.orderly();
        let reading = reading(self.plan, point, interrupt.asked()).map_err(|trouble| self.located(trouble))?;
        let reading = reading.ok_or(Failure::Interrupted)?;
        points.write(number, &reading)?;
        let mut doubts = self.doubts(layer);
        doubts.extend(warnings::of_reading(self.plan, point, &reading));
        warnings::allow(&mut doubts, &self.arguments.allow);
        if self.arguments.strict {
            doubts.iter().for_each(|warning| tell(&warning.to_string()));
        }
        self.judge(layer, &doubts)
    }
}

/// To whoever watches; standard output has the curve alone.
fn tell(line: &str) {
    let _ = writeln!(io::stderr(), "{line}");
}

fn outputs(arguments: &Arguments) -> impl Iterator<Item = &Path> {
    [&arguments.csv, &arguments.svg, &arguments.html].into_iter().filter_map(|path| path.as_deref())
}

/// No output may take the place of an input or of another output.
fn check_outputs(arguments: &Arguments, inputs: impl IntoIterator<Item = PathBuf>) -> Result<(), String> {
    outputs(arguments).try_for_each(check_folder)?;
    let mut taken = vec![resolved(&arguments.head)];
    taken.extend(inputs.into_iter().map(|path| resolved(&path)));
    for path in outputs(arguments) {
        let file = resolved(path);
        // a device or a pipe may be named more than once
        let is_file = !file.exists() || file.is_file();
        if taken.contains(&file) && is_file {
            return Err(format!("{}: it is named twice, as an output and as another output or an input", path.display()));
        }
        taken.push(file);
    }
    Ok(())
}

type Readings = Result<Option<Vec<Reading>>, Trouble>;

fn readings(plan: &Plan, threads: usize, stop: &AtomicBool) -> Result<Readings, String> {
    let pool = rayon::ThreadPoolBuilder::new().num_threads(threads).build().map_err(|e| e.to_string())?;
    let bar = bar(plan, plan.points.len());
    let moved = |steps| bar.inc(steps);
    let readings = pool.install(|| plan.readings(&Watch { stop, moved: &moved }));
    bar.finish_and_clear();
    Ok(readings)
}

fn reading(plan: &Plan, point: &Point, stop: &AtomicBool) -> Result<Option<Reading>, Trouble> {
    let bar = bar(plan, 1);
    let moved = |steps| bar.inc(steps);
    let reading = plan.run(point, &Watch { stop, moved: &moved });
    bar.finish_and_clear();
    reading
}

/// For so many points; drawn on a terminal alone.
fn bar(plan: &Plan, points: usize) -> ProgressBar {
    let all = (plan.steps as u64).saturating_mul(points as u64);
    let bar = if io::stderr().is_terminal() { ProgressBar::new(all) } else { ProgressBar::hidden() };
    if let Ok(style) = ProgressStyle::with_template("{bar:40} {percent}% of {len} steps, {eta} left") {
        bar.set_style(style);
    }
    bar
}

fn write_files(arguments: &Arguments, curve: &Curve, input: &Input) -> Result<(), String> {
    let engine = format!("{}, program {}", cichowiej::ENGINE, program().get(..16).unwrap_or_default());
    let about = [engine, format!("input {}, SHA-256 {}", input.name, input.digest)];
    let write = |path: &Option<PathBuf>, bytes: &[u8]| match path {
        Some(path) => write_whole(path, bytes).map_err(|e| format!("{}: {e}", path.display())),
        None => Ok(()),
    };
    write(&arguments.csv, &table::csv(curve, &about).map_err(|e| e.to_string())?)?;
    let drawn = picture::svg(curve).map_err(|e| e.to_string())?;
    write(&arguments.svg, drawn.as_bytes())?;
    write(&arguments.html, page::html(curve, &drawn, &input.text, &about).as_bytes())
}
