//! `show`: a model line by line in words and as an expression, or as a picture.

use crate::arguments::{Form, Given};
use crate::commands::check::size;
use crate::dot;
use crate::expression;
use crate::files;
use crate::frames::Frame;
use crate::load::{load, Loaded};
use crate::outcome::{counted, fail, Answer, Outcome, Stopped};
use crate::reach::{self, MOST, PART};
use crate::readable;
use crate::sorts;
use crate::words::{channel_list, spelled};

pub const FORM: Form = Form { command: "show", values: &["--line", "--most"], flags: &["--dot"] };

pub fn run(given: &Given) -> Answer {
    let loaded = load(given.one_file()?)?.up_to(given.number("--line")?)?;
    if given.flag("--dot") {
        let most = given.number("--most")?.unwrap_or(MOST);
        return Ok(Outcome::text(picture(&loaded, most)?));
    }
    if given.value("--most").is_some() {
        return fail("--most limits a picture; give it together with --dot.");
    }
    Ok(Outcome::text(words(&loaded)))
}

/// A leaf with all its states, or the reachable part of another process.
fn picture(loaded: &Loaded, most: u64) -> Result<String, Stopped> {
    let leaf = matches!(loaded.model.frames.last(), Some(Frame::Leaf { .. }));
    let listed = if leaf { reach::every(loaded, most)? } else { reach::reachable(loaded, most, PART)? };
    Ok(dot::print(&listed, &loaded.names, &files::stem(&loaded.path)))
}

fn words(loaded: &Loaded) -> String {
    let names = &loaded.names;
    let mut text = format!("{}: {}\n", loaded.path.display(), size(&loaded.model));
    let numbers: Vec<String> =
        loaded.model.channels().iter().map(|c| format!("{c} {}", spelled(&names.channel(*c)))).collect();
    text += &format!(
        "channels: {}\n\n",
        if numbers.is_empty() { "none".to_string() } else { numbers.join(", ") }
    );
    let exits = sorts::exits(&loaded.model);
    for (line, frame) in loaded.model.frames.iter().enumerate() {
        let words = in_words(loaded, frame, line, &exits);
        text += &format!("line {line}, {}: {words}\n", spelled(&names.process(line)));
        if matches!(frame, Frame::Leaf { .. }) {
            text += &readable::leaf(&loaded.model, names, line);
        }
    }
    text + &format!("\nthe model: {}\n", expression::of(&loaded.model, names))
}

/// A line, given of each line whether its process may exit.
fn in_words(loaded: &Loaded, frame: &Frame, line: usize, exits: &[bool]) -> String {
    let names = &loaded.names;
    let exits = |line: usize| exits.get(line).copied().unwrap_or(false);
    let process = |line: &u8| spelled(&names.process(usize::from(*line)));
    let on = |list: &[u8]| match list {
        [] => "no channel".to_string(),
        _ => channel_list(list, names),
    };
    match frame {
        Frame::Leaf { states, triples } => {
            let (states, steps) = (counted(u64::from(*states), "state"), counted(triples.len() as u64, "step"));
            format!("a leaf of {states} and {steps}; the first state is the start")
        }
        Frame::Compose(i, j) => format!(
            "{} and {} composed: either side alone, or an output and an input on one channel together, as tau{}",
            process(i),
            process(j),
            if exits(line) { "; each side exits alone" } else { "" }
        ),
        Frame::Restrict(i, list) => format!("{} restricted: no steps on {}", process(i), on(list)),
        Frame::Relabel { of, old, new } => {
            format!("{} relabelled: {} becomes {}", process(of), on(&[*old]), on(&[*new]))
        }
        Frame::Hide(i, list) => format!("{} hidden: steps on {} become tau", process(i), on(list)),
        Frame::Joint(i, j, list) => format!(
            "{} and {} joined: on {} both take the same step together, and they exit only together; else either side alone",
            process(i),
            process(j),
            on(list)
        ),
        Frame::Enable { first, second } => {
            enabling(&process(first), &process(second), exits(usize::from(*first)))
        }
        Frame::Disable { first, second } => {
            disabling(&process(first), &process(second), exits(usize::from(*first)))
        }
    }
}

/// An enabling, given whether the first may exit.
fn enabling(first: &str, second: &str, exits: bool) -> String {
    let head = format!("{first} enables {second}");
    let [first, second] = apart(first, second);
    let ends = match exits {
        true => format!("its exit becomes tau and starts {second}"),
        false => format!("it never exits, so that {second} never starts"),
    };
    format!("{head}: {first} alone; {ends}")
}

/// A disabling, given whether the first may exit.
fn disabling(first: &str, second: &str, exits: bool) -> String {
    let head = format!("{first} disabled by {second}");
    let [first, second] = apart(first, second);
    let ends = match exits {
        true => format!(", and an exit of {first}, which stays visible, drops {second}"),
        false => String::new(),
    };
    format!("{head}: either may step; the first step of {second} drops {first}{ends}")
}

/// What the operands are called, also where one process is both.
fn apart<'a>(first: &'a str, second: &'a str) -> [&'a str; 2] {
    if first == second {
        ["the first one", "the second one"]
    } else {
        [first, second]
    }
}
