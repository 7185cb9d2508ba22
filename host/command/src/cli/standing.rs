//! `cichowiej keep`, `list`, `show`, `compare`, `verify` and `resume`: STANDING, a folder of saves.

use super::interrupt::Interrupt;
use super::{Failure, Input, print};
use crate::script::Script;
use crate::standing::note::Words;
use crate::standing::{Noted, Save, Standing, compare, list, short, show, verify};
use crate::text::plain;
use std::env;
use std::io::{self, Write};
use std::path::{Path, PathBuf};
use std::process::ExitCode;

#[derive(clap::Subcommand)]
pub enum Command {
    /// Keep a save in a folder, under the SHA-256 of its bytes
    Keep(KeepArguments),
    /// Draw the tree of kept saves: what was tried from what
    List(ListArguments),
    /// Say all that is known of a kept save
    Show(ShowArguments),
    /// Say in which records and cells two kept saves differ, and by how much
    Compare(CompareArguments),
    /// Go through all kept saves and name those that are damaged
    Verify(VerifyArguments),
    /// Take a kept save up again, run a script on it and keep what comes of it
    Resume(ResumeArguments),
}

#[derive(clap::Args)]
struct Folder {
    /// The folder of saves; if not given, what the environment variable CICHOWIEJ_FOLDER names, or else `standing`
    #[arg(long, value_name = "DIR")]
    folder: Option<PathBuf>,
}

impl Folder {
    fn standing(&self) -> Standing {
        let named = || env::var_os("CICHOWIEJ_FOLDER").filter(|name| !name.is_empty()).map(PathBuf::from);
        Standing::at(&self.folder.clone().or_else(named).unwrap_or_else(|| "standing".into()))
    }
}

#[derive(clap::Args)]
#[command(after_help = "Example: cichowiej keep head.save --label \"empty head\"\n\n\
    Prints the first 12 digits of the SHA-256, by which the save is called from then on. A save that is there already stays as it is, and so does its note.\n\n\
    Exit status: 0; 1 for a file that is no save or cannot be read or written; 2 for misuse; 130 after Ctrl-C")]
pub struct KeepArguments {
    /// The save's file
    #[arg(value_name = "SAVE")]
    save: PathBuf,
    /// What it is called in the list
    #[arg(long, value_name = "TEXT")]
    label: Option<String>,
    /// The kept save that it grew from
    #[arg(long, value_name = "ID", value_parser = id)]
    from: Option<String>,
    #[command(flatten)]
    folder: Folder,
}

#[derive(clap::Args)]
#[command(after_help = "Example: cichowiej list --folder trials")]
pub struct ListArguments {
    #[command(flatten)]
    folder: Folder,
}

#[derive(clap::Args)]
#[command(after_help = "Example: cichowiej show 3f2a9c")]
pub struct ShowArguments {
    /// The first digits of the save's SHA-256, 4 or more
    #[arg(value_name = "ID", value_parser = id)]
    id: String,
    #[command(flatten)]
    folder: Folder,
}

#[derive(clap::Args)]
#[command(after_help = "Example: cichowiej compare 3f2a9c 81d0\n\n\
    Exit status: 0, whether they differ or not; 1 for bad input; 2 for misuse; 130 after Ctrl-C")]
pub struct CompareArguments {
    /// The first digits of a save's SHA-256, 4 or more
    #[arg(value_name = "ID", value_parser = id)]
    first: String,
    /// Those of the other's
    #[arg(value_name = "ID", value_parser = id)]
    second: String,
    #[command(flatten)]
    folder: Folder,
}

#[derive(clap::Args)]
#[command(after_help = "Example: cichowiej verify --folder trials\n\n\
    A save of an older library with a pole that cannot be stepped is named too: it is whole, and no damage.\n\n\
    Exit status: 0; 1 where something is damaged; 2 for misuse; 130 after Ctrl-C")]
pub struct VerifyArguments {
    #[command(flatten)]
    folder: Folder,
}

#[derive(clap::Args)]
#[command(after_help = "Example: cichowiej resume 3f2a9c wetter.script --label \"7 % moisture\"\n\n\
    Prints what the script prints, and last the first 12 digits of the new save's SHA-256.\n\n\
    Exit status: 0; 1 for bad input or a refusal of the engine; 2 for misuse; 130 after Ctrl-C")]
pub struct ResumeArguments {
    /// The first digits of the save's SHA-256, 4 or more
    #[arg(value_name = "ID", value_parser = id)]
    id: String,
    /// The script's file
    #[arg(value_name = "SCRIPT")]
    script: PathBuf,
    /// What the new save is called in the list; the script's name if not given
    #[arg(long, value_name = "TEXT")]
    label: Option<String>,
    /// Print numbers as the hexadecimal digits of their bits
    #[arg(long)]
    hex: bool,
    #[command(flatten)]
    folder: Folder,
}

/// The beginning of a SHA-256.
fn id(text: &str) -> Result<String, String> {
    let good = (4..=64).contains(&text.len()) && text.bytes().all(|b| b.is_ascii_hexdigit());
    if good { Ok(text.to_ascii_lowercase()) } else { Err("take 4 to 64 hexadecimal digits".into()) }
}

pub fn run(command: &Command) -> Result<ExitCode, Failure> {
    match command {
        Command::Keep(arguments) => keep(arguments)?,
        Command::Resume(arguments) => resume(arguments)?,
        _ => return read(command),
    }
    Ok(ExitCode::SUCCESS)
}

/// The commands that write nothing.
fn read(command: &Command) -> Result<ExitCode, Failure> {
    let _interrupt = Interrupt::heard()?;
    let mut status = ExitCode::SUCCESS;
    let text = match command {
        Command::List(arguments) => list::list(&arguments.folder.standing())?,
        Command::Show(arguments) => {
            let standing = arguments.folder.standing();
            show::show(&standing, &standing.resolve(&arguments.id)?)?
        }
        Command::Compare(arguments) => compared(arguments)?,
        Command::Verify(arguments) => {
            let report = verify::verify(&arguments.folder.standing())?;
            status = ExitCode::from(u8::from(report.damaged > 0));
            report.text
        }
        Command::Keep(_) | Command::Resume(_) => String::new(),
    };
    print(&text)?;
    Ok(status)
}

fn keep(arguments: &KeepArguments) -> Result<(), Failure> {
    let interrupt = Interrupt::heard()?;
    let standing = arguments.folder.standing();
    let grew_from = arguments.from.as_ref().map(|from| standing.resolve(from)).transpose()?;
    let save = Save::from_file(&arguments.save)?;
    put(&standing, &save, Words { label: arguments.label.clone(), grew_from }, &interrupt)
}

fn resume(arguments: &ResumeArguments) -> Result<(), Failure> {
    let interrupt = Interrupt::heard()?;
    let standing = arguments.folder.standing();
    let parent = standing.resolve(&arguments.id)?;
    let input = Input::read(&arguments.script)?;
    let script = Script::parse(&input)?;
    if let Some(line) = script.begins_anew() {
        let told = "it begins another study, which would not have grown from this one: take run and keep";
        return Err(format!("{}:{line}: {told}", input.name).into());
    }
    let mut out = |text: &str| print(text).map_err(Failure::from);
    let kept = standing.kept(&parent).map_err(String::from)?;
    let study = script.run(Some(kept.study), arguments.hex, &mut out, &interrupt)?;
    let study = study.ok_or_else(|| format!("{}: there is no study at its end, and nothing is kept", input.name))?;
    let label = arguments.label.clone().unwrap_or_else(|| file_name(&arguments.script));
    put(&standing, &Save::from_study(study)?, Words { label: Some(label), grew_from: Some(parent) }, &interrupt)
}

/// Ctrl-C leaves the folder as it was up to the first write: one that has begun is brought to its end.
fn put(standing: &Standing, save: &Save, words: Words, interrupt: &Interrupt) -> Result<(), Failure> {
    let there = standing.holds(save)?;
    let _orderly = interrupt.orderly();
    interrupt.check()?;
    if !there {
        standing.add(save)?;
    }
    let before = standing.annotate(save, words)?;
    print(&format!("{}\n", short(&save.id)))?;
    if let Some(remark) = told(&before) {
        // standard output has the id alone, for a script
        let _ = writeln!(io::stderr(), "{} {remark}", short(&save.id));
    }
    Ok(())
}

/// What there was of the save before it was kept.
fn told(before: &Noted) -> Option<String> {
    match before {
        Noted::Nothing => None,
        Noted::Damaged(message) => Some(format!("is there already; its note is damaged: {}", plain(message))),
        Noted::Whole(note) => {
            let label = note.label.as_deref().map_or("without a label".into(), |label| format!("as \"{}\"", plain(label)));
            Some(format!("is there already, kept {} {label}", note.kept))
        }
    }
}

fn compared(arguments: &CompareArguments) -> Result<String, String> {
    let standing = arguments.folder.standing();
    let (first, second) = (standing.resolve(&arguments.first)?, standing.resolve(&arguments.second)?);
    compare::compare_kept(&standing, [&first, &second])
}

fn file_name(path: &Path) -> String {
    path.file_name().unwrap_or(path.as_os_str()).to_string_lossy().into_owned()
}
