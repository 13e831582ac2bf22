//! A model as one expression: CCS for compose `|`, restrict `\ {..}` and relabel `[new/old]`, LOTOS for hide, joint, enable `>>` and
//! disable `[>`.

use crate::frames::{Frame, Model};
use crate::names::Names;
use crate::words::{channel_list, spelled};

/// A longer expression is not written into another; its process's name stands for it.
const LONG: usize = 2_000;

/// The last line's process over its leaves.
pub fn of(model: &Model, names: &Names) -> String {
    let mut written: Vec<(String, bool)> = Vec::new();
    for (line, frame) in model.frames.iter().enumerate() {
        let expression = one(line, frame, names, &written);
        written.push(expression);
    }
    written.pop().map(|(expression, _)| expression).unwrap_or_default()
}

/// An expression, and whether it needs brackets as an operand.
fn one(line: usize, frame: &Frame, names: &Names, earlier: &[(String, bool)]) -> (String, bool) {
    let operand = |i: &u8| match earlier.get(usize::from(*i)) {
        Some((expression, _)) if expression.len() > LONG => spelled(&names.process(usize::from(*i))),
        Some((expression, true)) => format!("({expression})"),
        Some((expression, false)) => expression.clone(),
        None => "?".to_string(),
    };
    let list = |channels: &[u8]| channel_list(channels, names);
    match frame {
        Frame::Leaf { .. } => (spelled(&names.process(line)), false),
        Frame::Compose(i, j) => (format!("{} | {}", operand(i), operand(j)), true),
        Frame::Restrict(i, channels) => (format!("{} \\ {{{}}}", operand(i), list(channels)), true),
        Frame::Relabel { of, old, new } => {
            (format!("{}[{}/{}]", operand(of), list(&[*new]), list(&[*old])), false)
        }
        Frame::Hide(i, channels) => (format!("hide {} in {}", list(channels), operand(i)), true),
        Frame::Joint(i, j, channels) => {
            (format!("{} |[{}]| {}", operand(i), list(channels), operand(j)), true)
        }
        Frame::Enable { first, second } => (format!("{} >> {}", operand(first), operand(second)), true),
        Frame::Disable { first, second } => (format!("{} [> {}", operand(first), operand(second)), true),
    }
}
