//! Aldebaran files (.aut): reading and writing.

use crate::outcome::{counted, misplaced, Misplaced};
use crate::words::{exit_with_values, EXIT_DIRECTED, EXIT_VALUED, EXIT_WORD};

#[derive(Clone, Debug, PartialEq, Eq, PartialOrd, Ord)]
pub enum Label {
    Internal,
    Output(String),
    Input(String),
    /// A label without a direction.
    Gate(String),
    /// The termination event.
    Exit,
}

#[derive(Clone, Debug, PartialEq, Eq, PartialOrd, Ord)]
pub struct Transition {
    pub from: usize,
    pub label: Label,
    pub to: usize,
}

#[derive(Clone, Debug, PartialEq, Eq, PartialOrd, Ord)]
pub struct Aut {
    pub first: usize,
    pub states: usize,
    pub transitions: Vec<Transition>,
    /// Line and column of each transition's label.
    pub places: Vec<(usize, usize)>,
}

const HEADER: &str = "an .aut file starts with 'des (FIRST, TRANSITIONS, STATES)', three numbers";
const TRANSITION: &str = "a transition is '(FROM, LABEL, TO)'";

impl Label {
    /// A label without its quotes: the mark of direction stands at either end of the name.
    pub fn parse(text: &str) -> Result<Label, String> {
        let text = text.trim();
        if matches!(text, "i" | "tau") {
            return Ok(Label::Internal);
        }
        if text == EXIT_WORD {
            return Ok(Label::Exit);
        }
        if exit_with_values(text) {
            return Err(EXIT_VALUED.into());
        }
        if let Some(c) = text.chars().find(|c| c.is_control()) {
            return Err(format!("the label has the control character {}; leave it out.", c.escape_unicode()));
        }
        let marks = [
            (text.strip_suffix('!'), true),
            (text.strip_suffix('?'), false),
            (text.strip_prefix('!'), true),
            (text.strip_prefix('?'), false),
        ];
        let marked = marks.iter().find_map(|(name, output)| name.map(|n| (n.trim(), *output)));
        match marked {
            None if text.is_empty() => {
                Err("the label is empty; write i for an internal step, or a name.".into())
            }
            Some(("", _)) => Err("the label has a direction but no name; write NAME! or NAME?.".into()),
            Some((EXIT_WORD, _)) => Err(EXIT_DIRECTED.into()),
            None => Ok(Label::Gate(text.to_string())),
            Some((name, true)) => Ok(Label::Output(name.to_string())),
            Some((name, false)) => Ok(Label::Input(name.to_string())),
        }
    }
}

pub fn parse(text: &str) -> Result<Aut, Misplaced> {
    let mut lines = text.lines().enumerate().filter(|(_, line)| !line.trim().is_empty());
    let Some((index, line)) = lines.next() else {
        return misplaced(1, 1, format!("the file is empty; {HEADER}."));
    };
    let (first, announced, states) = header(index + 1, line)?;
    let (mut transitions, mut places) = (Vec::new(), Vec::new());
    for (index, line) in lines {
        let (transition, column) = transition(index + 1, line, states)?;
        transitions.push(transition);
        places.push((index + 1, column));
    }
    if transitions.len() != announced {
        let found = transitions.len();
        let follow = if found == 1 { "follows" } else { "follow" };
        let sentence =
            format!("the header says TRANSITIONS = {announced}, and {found} {follow}; correct the number or add the missing lines.");
        return misplaced(index + 1, column(line, announced_part(line)), sentence);
    }
    if first >= states {
        let sentence = format!(
            "the first state is {first}, but states go from 0 to one less than {states}; correct the header."
        );
        return misplaced(index + 1, 1, sentence);
    }
    Ok(Aut { first, states, transitions, places })
}

fn header(number: usize, line: &str) -> Result<(usize, usize, usize), Misplaced> {
    let inner = line.trim().strip_prefix("des").map(str::trim);
    let inner = inner.and_then(|rest| rest.strip_prefix('(')).and_then(|rest| rest.strip_suffix(')'));
    let Some(inner) = inner else {
        return misplaced(number, 1, format!("{HEADER}; this line does not."));
    };
    let parts: Vec<&str> = inner.split(',').collect();
    let [first, count, states] = parts[..] else {
        let found = counted(parts.len() as u64, "part");
        let are = if parts.len() == 1 { "is" } else { "are" };
        return misplaced(number, column(line, inner), format!("{HEADER}; here {are} {found}."));
    };
    Ok((
        self::number(number, line, first)?,
        self::number(number, line, count)?,
        self::number(number, line, states)?,
    ))
}

fn announced_part(line: &str) -> &str {
    line.split(',').nth(1).unwrap_or(line)
}

/// A transition and its label's column. The label stands between the first and the last comma, so that it may hold commas.
fn transition(number: usize, line: &str, states: usize) -> Result<(Transition, usize), Misplaced> {
    let inner = line.trim().strip_prefix('(').and_then(|rest| rest.strip_suffix(')'));
    let Some(inner) = inner else {
        return misplaced(number, 1, format!("{TRANSITION}; this line is not in brackets."));
    };
    let parts =
        inner.split_once(',').and_then(|(from, rest)| rest.rsplit_once(',').map(|(l, to)| (from, l, to)));
    let Some((from, label, to)) = parts else {
        return misplaced(
            number,
            column(line, inner),
            format!("{TRANSITION}; here are fewer than two commas."),
        );
    };
    let trimmed = label.trim();
    let place = column(line, trimmed);
    let quoted = trimmed.strip_prefix('"').map(|rest| rest.strip_suffix('"'));
    let label = match quoted {
        Some(None) => {
            return misplaced(number, place, "the label's quote is not closed; end it with a quote.")
        }
        Some(Some(inner)) => Label::parse(inner),
        None => Label::parse(trimmed),
    };
    let label = label.map_err(|sentence| Misplaced::new(number, place, sentence))?;
    let (from, to) = (state(number, line, from, states)?, state(number, line, to, states)?);
    Ok((Transition { from, label, to }, place))
}

fn state(number: usize, line: &str, part: &str, states: usize) -> Result<usize, Misplaced> {
    let state = self::number(number, line, part)?;
    if state >= states {
        let states = counted(states as u64, "state");
        let sentence = format!(
            "there is no state {state}: the header says {states}, counted from 0. Correct one of them."
        );
        return misplaced(number, column(line, part.trim()), sentence);
    }
    Ok(state)
}

fn number(line_number: usize, line: &str, part: &str) -> Result<usize, Misplaced> {
    let word = part.trim();
    match word.parse::<u32>() {
        Ok(number) => Ok(number as usize),
        Err(_) => {
            let sentence =
                format!("'{word}' is not a whole number below 4,294,967,296; write one in decimal digits.");
            misplaced(line_number, column(line, word), sentence)
        }
    }
}

/// The column of a part of the line, counted in characters from 1.
fn column(line: &str, part: &str) -> usize {
    let offset = (part.as_ptr() as usize).saturating_sub(line.as_ptr() as usize);
    line.get(..offset).map_or(1, |before| before.chars().count() + 1)
}

/// The file; labels stand in quotes, but for exit, and the internal step as the given word.
pub fn print(aut: &Aut, internal: &str) -> String {
    let mut text = format!("des ({}, {}, {})\n", aut.first, aut.transitions.len(), aut.states);
    for Transition { from, label, to } in &aut.transitions {
        let label = match label {
            Label::Internal => internal.to_string(),
            Label::Output(name) => format!("\"{name}!\""),
            Label::Input(name) => format!("\"{name}?\""),
            Label::Gate(name) => format!("\"{name}\""),
            Label::Exit => EXIT_WORD.to_string(),
        };
        text += &format!("({from}, {label}, {to})\n");
    }
    text
}
