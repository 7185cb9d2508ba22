//! The manual page, from the same words as `--help`.

use clap::{Arg, Command};

/// The page in the form that `man` reads.
pub fn page(command: &Command) -> String {
    let name = command.get_name();
    let about = command.get_about().map_or(String::new(), |about| about.to_string());
    let mut out = format!(".TH {} 1\n.SH NAME\n{} \\- {}\n", name.to_uppercase(), escaped(name), escaped(&about));
    out += &format!(".SH SYNOPSIS\n.B {}\n.I COMMAND\n.SH COMMANDS\n", escaped(name));
    for part in command.get_subcommands().filter(|part| !part.is_hide_set() && part.get_name() != "help") {
        out += &section(name, part);
    }
    out
}

/// One command: its words, what it does, its options, and what stands behind its help.
fn section(program: &str, command: &Command) -> String {
    let arguments: Vec<&Arg> = command.get_arguments().filter(|argument| !argument.is_hide_set()).collect();
    let positional = arguments.iter().filter(|argument| argument.is_positional());
    let names: String = positional.map(|argument| format!(" \\fI{}\\fR", escaped(&value(argument)))).collect();
    let about = command.get_about().map_or(String::new(), |about| about.to_string());
    let mut out = format!(".SS {} {}{names}\n{}.\n", escaped(program), escaped(command.get_name()), escaped(&about));
    for argument in &arguments {
        let help = argument.get_help().map_or(String::new(), |help| help.to_string());
        out += &format!(".TP\n{}\n{}\n", tag(argument), escaped(&help));
    }
    if let Some(more) = command.get_after_help() {
        for paragraph in more.to_string().split("\n\n") {
            out += &format!(".PP\n{}\n", escaped(paragraph));
        }
    }
    out
}

/// A value's name.
fn value(argument: &Arg) -> String {
    let names = argument.get_value_names().unwrap_or_default();
    names.first().map_or(argument.get_id().as_str().to_uppercase(), |name| name.to_string())
}

/// An option with its value, or a word that stands alone.
fn tag(argument: &Arg) -> String {
    let taken = argument.get_action().takes_values();
    match argument.get_long() {
        None => format!("\\fI{}\\fR", escaped(&value(argument))),
        Some(long) if taken => format!("\\fB{}\\fR \\fI{}\\fR", escaped(&format!("--{long}")), escaped(&value(argument))),
        Some(long) => format!("\\fB{}\\fR", escaped(&format!("--{long}"))),
    }
}

/// What the reader of the page takes for itself, written out.
fn escaped(text: &str) -> String {
    let text = text.replace('\\', "\\e").replace('-', "\\-");
    let lines = text.lines().map(|line| if line.starts_with(['.', '\'']) { format!("\\&{line}") } else { line.to_string() });
    lines.collect::<Vec<String>>().join("\n.br\n")
}
