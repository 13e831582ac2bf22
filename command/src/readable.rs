//! Writing a model in the readable form.

use crate::frames::{Frame, Model};
use crate::names::Names;
use crate::words::{action, channel_list, spelled};

const STATES_A_LINE: usize = 8;

/// The model with all its names; reading it again gives the same text and the same names.
pub fn print(model: &Model, names: &Names, of: &str) -> String {
    let names = names.completed(model);
    let mut text =
        format!("# The model {}; its last definition is the model.\n\n", of.replace(char::is_control, "?"));
    text += &declarations(&names);
    for line in 0..model.frames.len() {
        text += &definition(model, &names, line);
    }
    text
}

fn declarations(names: &Names) -> String {
    let mut text = String::new();
    for (head, gate) in [("channels", false), ("gates", true)] {
        let items: Vec<String> = names
            .channels
            .iter()
            .filter(|(_, channel)| channel.gate == gate)
            .map(|(number, channel)| format!("{} = {number}", spelled(&channel.name)))
            .collect();
        if !items.is_empty() {
            text += &format!("{head} {}\n", items.join(", "));
        }
    }
    text
}

fn definition(model: &Model, names: &Names, line: usize) -> String {
    let name = spelled(&names.process(line));
    let below = line.checked_sub(1).and_then(|l| model.frames.get(l));
    let after_leaf = if matches!(below, Some(Frame::Leaf { .. })) { "\n" } else { "" };
    match &model.frames[line] {
        Frame::Leaf { .. } => format!("\nleaf {name}\n{}", leaf(model, names, line)),
        other => format!("{after_leaf}{name} = {}\n", operator(other, names)),
    }
}

/// An operator with its operands by name.
pub fn operator(frame: &Frame, names: &Names) -> String {
    let process = |line: &u8| spelled(&names.process(usize::from(*line)));
    let on = |list: &[u8]| {
        if list.is_empty() {
            String::new()
        } else {
            format!(" on {}", channel_list(list, names))
        }
    };
    match frame {
        Frame::Leaf { .. } => String::new(),
        Frame::Compose(i, j) => format!("compose {} {}", process(i), process(j)),
        Frame::Restrict(i, list) => format!("restrict {}{}", process(i), on(list)),
        Frame::Relabel { of, old, new } => {
            format!(
                "relabel {} {} to {}",
                process(of),
                channel_list(&[*old], names),
                channel_list(&[*new], names)
            )
        }
        Frame::Hide(i, list) => format!("hide {}{}", process(i), on(list)),
        Frame::Joint(i, j, list) => format!("joint {} {}{}", process(i), process(j), on(list)),
        Frame::Enable { first, second } => format!("enable {} then {}", process(first), process(second)),
        Frame::Disable { first, second } => format!("disable {} by {}", process(first), process(second)),
    }
}

/// The states and steps of a leaf, indented.
pub fn leaf(model: &Model, names: &Names, line: usize) -> String {
    let Some(Frame::Leaf { states, triples }) = model.frames.get(line) else { return String::new() };
    let all: Vec<String> = (0..usize::from(*states)).map(|s| spelled(&names.state(line, s))).collect();
    let mut text: String =
        all.chunks(STATES_A_LINE).map(|some| format!("  states {}\n", some.join(", "))).collect();
    for t in triples {
        let (from, to) = (names.state(line, usize::from(t.from)), names.state(line, usize::from(t.to)));
        text += &format!("  {} -- {} --> {}\n", spelled(&from), action(t.action, names), spelled(&to));
    }
    text
}
