//! Which part of a refused line is wrong: only an explanation, the refusal itself is the library's.

use crate::frames::{bytes, Model, EXIT, EXIT_CHANNEL, MOST_CHANNEL, MOST_LINES, MOST_STATES};
use crate::outcome::counted;
use seipolku::layout::{Form, Operator};

/// The first column of the part in the line, its length, and what is wrong with it.
pub struct Culprit {
    pub column: usize,
    pub length: usize,
    pub words: String,
}

fn culprit(column: usize, length: usize, words: impl Into<String>) -> Option<Culprit> {
    Some(Culprit { column, length, words: words.into() })
}

/// A refused line without its end.
pub struct Line<'a> {
    pub number: u64,
    pub bytes: &'a [u8],
    /// Whether a newline follows.
    pub ended: bool,
    /// All bytes up to the next line.
    pub up_to: &'a [u8],
}

/// Explains a refusal 1 to 6 of a line.
pub fn find(refusal: u64, line: &Line) -> Option<Culprit> {
    let Line { number, bytes: line, ended, up_to } = *line;
    match refusal {
        1 => digits(line, ended),
        2 => culprit(0, line.len(), format!("this line has {}", counted(line.len() as u64 / 2, "byte"))),
        3 => line_number(number, line),
        4 => kind(&bytes(line)?),
        5 => range(number, &bytes(line)?),
        6 => culprit(0, line.len(), size(&Model::decode(up_to)?)?),
        _ => None,
    }
}

/// How large the last line's process is, with the bits that it gets from its operands and those that it adds.
pub fn size(model: &Model) -> Option<String> {
    let layout = model.layout()?;
    let Form::Over(operator, operands) = &layout.form else { return None };
    let by = |word: &str| format!(", {} that {word} adds", operator.added());
    let added = match operator {
        Operator::Both => String::new(),
        Operator::Enable => by("enable"),
        Operator::Disable => by("disable"),
    };
    Some(format!(
        "this process has {} of state ({} and {} of its operands{added}) and {}",
        counted(u64::from(layout.bits), "bit"),
        operands[0].bits,
        operands[1].bits,
        counted(layout.uses as u64, "leaf use")
    ))
}

fn digits(line: &[u8], ended: bool) -> Option<Culprit> {
    let bad = line.iter().position(|b| !matches!(b, b'0'..=b'9' | b'A'..=b'F'));
    match bad {
        Some(at) => {
            let words = match line[at] {
                b'\r' => "a carriage return (lines end with a newline alone)".to_string(),
                b' ' => "a space".to_string(),
                b'a'..=b'f' => "a small letter".to_string(),
                byte => format!("the byte {byte:02X} is no digit"),
            };
            culprit(at, 1, words)
        }
        None if line.len() % 2 != 0 => culprit(line.len() - 1, 1, "an odd digit at the end"),
        None if !ended => culprit(line.len(), 1, "the newline is missing here"),
        None => None,
    }
}

fn line_number(number: u64, line: &[u8]) -> Option<Culprit> {
    if number >= MOST_LINES as u64 {
        return culprit(0, line.len(), "this is one line too many");
    }
    culprit(0, 2, format!("this should be {number:02X}"))
}

fn kind(bytes: &[u8]) -> Option<Culprit> {
    let kind = *bytes.get(1)?;
    let body = bytes.len() - 2;
    let wants = match kind {
        1 => "a leaf has a state count, then three bytes for each step",
        2 => "compose has two operands",
        3 | 5 => "restrict and hide have one operand, then channels",
        4 => "relabel has one operand and two channels",
        6 => "joint has two operands, then channels",
        7 => "enable has two operands",
        8 => "disable has two operands",
        _ => return culprit(2, 2, format!("there is no kind {kind:02X}")),
    };
    culprit(
        4,
        (2 * body).max(1),
        format!(
            "{wants}; here {} {} after the kind",
            if body == 1 { "is" } else { "are" },
            counted(body as u64, "byte")
        ),
    )
}

fn range(number: u64, bytes: &[u8]) -> Option<Culprit> {
    let roles = roles(bytes);
    let (index, words) = roles.iter().enumerate().find_map(|(index, role)| {
        let byte = *bytes.get(index + 2)?;
        Some((index, wrong(*role, byte, number, bytes)?))
    })?;
    culprit(2 * (index + 2), 2, words)
}

#[derive(Clone, Copy)]
enum Role {
    Count,
    State,
    Action,
    Channel,
    Operand,
}

/// What each byte after the kind stands for.
fn roles(bytes: &[u8]) -> Vec<Role> {
    let body = bytes.len().saturating_sub(2);
    let first: &[Role] = match bytes.get(1) {
        Some(1) => &[Role::Count],
        Some(2 | 6 | 7 | 8) => &[Role::Operand, Role::Operand],
        _ => &[Role::Operand],
    };
    let rest: &[Role] = match bytes.get(1) {
        Some(1) => &[Role::State, Role::Action, Role::State],
        _ => &[Role::Channel],
    };
    first.iter().chain(rest.iter().cycle()).take(body).copied().collect()
}

fn wrong(role: Role, byte: u8, number: u64, bytes: &[u8]) -> Option<String> {
    let states = bytes.get(2).copied().unwrap_or(0);
    let bad = match role {
        Role::Count => byte == 0 || usize::from(byte) > MOST_STATES,
        Role::State => byte >= states,
        Role::Action => byte == 1 || byte > EXIT,
        Role::Channel => byte == 0 || byte > MOST_CHANNEL,
        Role::Operand => u64::from(byte) >= number,
    };
    let words = match role {
        Role::Count => format!("{}; a leaf has 1 to {MOST_STATES}", counted(u64::from(byte), "state")),
        Role::State => {
            format!("state {byte}; this leaf has {}, counted from 0", counted(u64::from(states), "state"))
        }
        Role::Action if byte == EXIT + 1 => {
            format!("action {byte}; channel {EXIT_CHANNEL} is the termination event, whose only action is {EXIT}")
        }
        Role::Action => format!(
            "action {byte}; actions are 0 (tau), {EXIT} (exit), and 2c (output) and 2c + 1 (input) for a channel c from 1 to {MOST_CHANNEL}"
        ),
        Role::Channel if byte == EXIT_CHANNEL => {
            format!("channel {byte}; it is the termination event, exit, which no list or relabelling names")
        }
        Role::Channel => format!("channel {byte}; channels go from 1 to {MOST_CHANNEL}"),
        Role::Operand => format!("line {byte}; an operand is a line before this one"),
    };
    bad.then_some(words)
}
