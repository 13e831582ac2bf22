//! The command for designers. It parses, prints and lends memory; verdicts, refusals and every step and pair that is listed come from
//! the proved library. That a listing misses no step is tested, not proved.

mod arguments;
mod assemble;
mod aut;
mod channels;
mod commands;
mod culprit;
mod dot;
mod expression;
mod files;
mod frames;
mod full;
mod help;
mod json;
mod load;
mod names;
mod numbering;
mod origin;
mod outcome;
mod output;
mod progress;
mod proved;
mod reach;
mod readable;
mod refusals;
mod sha256;
mod sorts;
mod source;
mod space;
mod stages;
mod syntax;
mod tokens;
mod words;

use arguments::{Form, Given};
use commands::{build, check, compare, from_aut, pairs, show, steps, to_aut};
use outcome::{fail, Answer, Outcome, Stopped, FAILED};
use std::ffi::OsString;
use std::io::{ErrorKind, Write};
use std::process::ExitCode;

type Run = fn(&Given) -> Answer;

const COMMANDS: [(Form, Run); 8] = [
    (compare::FORM, compare::run),
    (pairs::FORM, pairs::run),
    (steps::FORM, steps::run),
    (show::FORM, show::run),
    (check::FORM, check::run),
    (from_aut::FORM, from_aut::run),
    (to_aut::FORM, to_aut::run),
    (build::FORM, build::run),
];

fn main() -> ExitCode {
    let words: Vec<OsString> = std::env::args_os().skip(1).collect();
    let mut outcome = answer(&words).unwrap_or_else(|stopped| without_answer(&stopped, &words));
    if let Err(error) = print(&outcome.text) {
        outcome
            .notes
            .push(format!("seipolku: the answer can't be written: {error}. Make room, or write elsewhere."));
        outcome.status = FAILED;
    }
    for note in &outcome.notes {
        let _ = writeln!(std::io::stderr(), "{}", note.trim_end());
    }
    ExitCode::from(outcome.status)
}

/// What is said where there is no answer: a sentence on standard error, or with --json an object on standard output.
fn without_answer(stopped: &Stopped, words: &[OsString]) -> Outcome {
    let options = || words.iter().take_while(|w| *w != "--").filter_map(|w| w.to_str());
    let given = |flag: &str| options().any(|w| w.split('=').next() == Some(flag));
    let text =
        if given("--json") { json::error(stopped.sentence(), stopped.status()) } else { String::new() };
    let mut notes = Vec::new();
    if text.is_empty() || given("--quiet") {
        notes.push(format!("seipolku: {}", stopped.sentence()));
    }
    Outcome { text, notes, status: stopped.status() }
}

/// A reader that has gone away, as `head` does, is no error.
fn print(text: &str) -> std::io::Result<()> {
    let mut out = std::io::stdout();
    match out.write_all(text.as_bytes()).and_then(|()| out.flush()) {
        Err(error) if error.kind() != ErrorKind::BrokenPipe => Err(error),
        _ => Ok(()),
    }
}

fn answer(words: &[OsString]) -> Answer {
    let Some((command, rest)) = words.split_first() else {
        return fail(format!("a subcommand is missing; choose one of these.\n\n{}", help::GENERAL));
    };
    let command = command.to_string_lossy();
    if matches!(&*command, "--help" | "-h" | "help") {
        let about = rest.first().map(|w| w.to_string_lossy()).unwrap_or_default();
        return Ok(Outcome::text(help::of(&about).to_string()));
    }
    if matches!(&*command, "--version" | "-V") {
        return Ok(Outcome::text(format!("seipolku {}\n", env!("CARGO_PKG_VERSION"))));
    }
    let Some((form, run)) = COMMANDS.iter().find(|(form, _)| form.command == command) else {
        return fail(format!("there is no subcommand '{command}'; 'seipolku --help' lists them all."));
    };
    let options = rest.iter().take_while(|w| *w != "--");
    if options.clone().any(|w| w == "--help" || w == "-h") {
        return Ok(Outcome::text(help::of(form.command).to_string()));
    }
    run(&Given::read(form, rest)?)
}
