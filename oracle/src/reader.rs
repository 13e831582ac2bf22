//! Text to model, or the refusal that is due.

use crate::model::{
    Channels, Line, Model, Process, Triple, EXIT, MAX_BITS, MAX_LINES, MAX_USES, MOST_CHANNEL, TAU,
};

/// Refusal 1 to 6 with its line.
#[derive(Clone, Copy, Debug, PartialEq, Eq)]
pub struct Refusal {
    pub number: u8,
    pub line: usize,
}

const BAD_TEXT: u8 = 1;
const BAD_SIZE: u8 = 2;
const BAD_NUMBER: u8 = 3;
const BAD_KIND: u8 = 4;
const BAD_RANGE: u8 = 5;
const TOO_LARGE: u8 = 6;

/// Reads the lines in order and stops at the first bad one.
pub fn read(text: &[u8]) -> Result<Model, Refusal> {
    if text.is_empty() {
        return Err(Refusal { number: BAD_TEXT, line: 0 });
    }
    let mut model = Model::default();
    let mut rest = text;
    while !rest.is_empty() {
        let line = model.lines.len();
        let refuse = |number| Refusal { number, line };
        let end = rest.iter().position(|&b| b == b'\n').ok_or(refuse(BAD_TEXT))?;
        let next = read_line(&rest[..end], &model.lines).map_err(refuse)?;
        model.lines.push(next);
        rest = &rest[end + 1..];
    }
    Ok(model)
}

/// The checks stand in the order of their numbers.
fn read_line(digits: &[u8], earlier: &[Line]) -> Result<Line, u8> {
    let frame = decode(digits).ok_or(BAD_TEXT)?;
    if !(2..=255).contains(&frame.len()) {
        return Err(BAD_SIZE);
    }
    if earlier.len() >= MAX_LINES || usize::from(frame[0]) != earlier.len() {
        return Err(BAD_NUMBER);
    }
    let (kind, body) = (frame[1], &frame[2..]);
    if !length_fits(kind, body.len()) {
        return Err(BAD_KIND);
    }
    let process = process(kind, body, earlier.len()).ok_or(BAD_RANGE)?;
    let line = Line::new(process, earlier);
    if line.bits > MAX_BITS || line.uses > MAX_USES {
        return Err(TOO_LARGE);
    }
    Ok(line)
}

fn decode(digits: &[u8]) -> Option<Vec<u8>> {
    if !digits.len().is_multiple_of(2) {
        return None;
    }
    digits.chunks(2).map(|pair| Some(digit(pair[0])? * 16 + digit(pair[1])?)).collect()
}

fn digit(byte: u8) -> Option<u8> {
    match byte {
        b'0'..=b'9' => Some(byte - b'0'),
        b'A'..=b'F' => Some(byte - b'A' + 10),
        _ => None,
    }
}

fn length_fits(kind: u8, length: usize) -> bool {
    match kind {
        1 => length % 3 == 1,
        2 | 7 | 8 => length == 2,
        3 | 5 => length >= 1,
        4 => length == 3,
        6 => length >= 2,
        _ => false,
    }
}

/// The process of a body whose length fits its kind; none if a value is out of range.
fn process(kind: u8, body: &[u8], line: usize) -> Option<Process> {
    match kind {
        1 => leaf(body[0], &body[1..]),
        2 => Some(Process::Compose(operand(body[0], line)?, operand(body[1], line)?)),
        3 => Some(Process::Restrict(operand(body[0], line)?, channels(&body[1..])?)),
        4 => Some(Process::Relabel {
            operand: operand(body[0], line)?,
            old: channel(body[1])?,
            new: channel(body[2])?,
        }),
        5 => Some(Process::Hide(operand(body[0], line)?, channels(&body[1..])?)),
        6 => Some(Process::Joint(operand(body[0], line)?, operand(body[1], line)?, channels(&body[2..])?)),
        7 => Some(Process::Enable(operand(body[0], line)?, operand(body[1], line)?)),
        _ => Some(Process::Disable(operand(body[0], line)?, operand(body[1], line)?)),
    }
}

fn leaf(states: u8, rest: &[u8]) -> Option<Process> {
    if !(1..=64).contains(&states) {
        return None;
    }
    let triples: Option<_> = rest.chunks(3).map(|t| triple(states, t)).collect();
    Some(Process::Leaf { states, triples: triples? })
}

fn triple(states: u8, bytes: &[u8]) -> Option<Triple> {
    let (from, action, to) = (bytes[0], bytes[1], bytes[2]);
    let fits = from < states && to < states && is_action(action);
    fits.then_some(Triple { from, action, to })
}

/// τ, exit, or an output or input on a channel that lists may name.
fn is_action(byte: u8) -> bool {
    byte == TAU || byte == EXIT || channel(byte / 2).is_some()
}

fn operand(byte: u8, line: usize) -> Option<usize> {
    Some(usize::from(byte)).filter(|&number| number < line)
}

fn channel(byte: u8) -> Option<u8> {
    Some(byte).filter(|c| (1..=MOST_CHANNEL).contains(c))
}

fn channels(bytes: &[u8]) -> Option<Channels> {
    bytes.iter().map(|&byte| channel(byte)).collect()
}
