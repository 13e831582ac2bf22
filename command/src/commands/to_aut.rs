//! `to-aut`: the reachable part of a model as an .aut file.

use crate::arguments::{Form, Given};
use crate::aut::{self, Aut, Label, Transition};
use crate::frames::{EXIT, MOST_STATES, MOST_TRIPLES};
use crate::load::{load, Loaded};
use crate::names::Names;
use crate::outcome::{counted, Answer};
use crate::output;
use crate::reach::{self, Listed, MOST, PART};

pub const FORM: Form = Form { command: "to-aut", values: &["--line", "--most", "--out"], flags: &["--tau"] };

pub fn run(given: &Given) -> Answer {
    let loaded = load(given.one_file()?)?.up_to(given.number("--line")?)?;
    let listed = reach::reachable(&loaded, given.number("--most")?.unwrap_or(MOST), PART)?;
    let internal = if given.flag("--tau") { "\"tau\"" } else { "i" };
    let aut = converted(&loaded, &listed);
    let mut outcome = output::give(aut::print(&aut, internal), given.path("--out"), &loaded.read())?;
    outcome.notes.extend(too_large(&aut));
    Ok(outcome)
}

/// Other tools read larger files than a leaf holds.
fn too_large(aut: &Aut) -> Option<String> {
    let (states, transitions) = (aut.states, aut.transitions.len());
    (states > MOST_STATES || transitions > MOST_TRIPLES).then(|| {
        format!(
            "note: with {} and {} this is more than from-aut reads back, {MOST_STATES} states and {MOST_TRIPLES} transitions.",
            counted(states as u64, "state"),
            counted(transitions as u64, "transition")
        )
    })
}

fn converted(loaded: &Loaded, listed: &Listed) -> Aut {
    let (numbers, states) = numbers(loaded, listed);
    let mut transitions: Vec<Transition> = listed
        .steps
        .iter()
        .map(|(from, action, to)| Transition {
            from: numbers[*from],
            label: label(*action, &loaded.names),
            to: numbers[*to],
        })
        .collect();
    transitions.sort();
    Aut { first: numbers.first().copied().unwrap_or(0), states, transitions, places: Vec::new() }
}

fn label(action: u8, names: &Names) -> Label {
    let channel = action / 2;
    let name = names.channel(channel);
    match (action % 2, names.is_gate(channel)) {
        _ if action == 0 => Label::Internal,
        _ if action == EXIT => Label::Exit,
        (0, true) => Label::Gate(name),
        (0, false) => Label::Output(name),
        _ => Label::Input(name),
    }
}

/// A number for each listed state, and how many there are. The states of a single leaf keep the numbers that they have as names,
/// if these go from 0 to n - 1; else the states are numbered as they are found.
fn numbers(loaded: &Loaded, listed: &Listed) -> (Vec<usize>, usize) {
    if let [part] = &listed.space.parts[..] {
        let states = part.states as usize;
        let named: Option<Vec<usize>> =
            (0..states).map(|s| loaded.names.state(part.line, s).parse().ok()).collect();
        let mut sorted = named.clone().unwrap_or_default();
        sorted.sort_unstable();
        if let (Some(named), true) = (named, sorted.iter().copied().eq(0..states)) {
            return (listed.codes.iter().map(|code| named[*code as usize]).collect(), states);
        }
    }
    ((0..listed.codes.len()).collect(), listed.codes.len())
}
