//! How names, actions and kinds of verdicts are written.

use crate::frames::EXIT;
use crate::names::Names;
use seipolku::Mode;
use std::path::Path;

/// A character of a name that needs no quotes.
pub fn plain(c: char) -> bool {
    c.is_alphanumeric() || c == '_' || c == '.' || c == '\''
}

/// The name as it is, or in quotes where it has other characters.
pub fn spelled(name: &str) -> String {
    if !name.is_empty() && name.chars().all(plain) {
        name.to_string()
    } else {
        quoted(name)
    }
}

pub fn quoted(name: &str) -> String {
    format!("\"{}\"", name.replace('\\', "\\\\").replace('"', "\\\""))
}

/// A path as a word of a shell's command.
pub fn for_shell(path: &Path) -> String {
    let text = path.to_string_lossy();
    let text = if text.starts_with('-') { format!("./{text}") } else { text.into_owned() };
    if text.chars().all(|c| c.is_alphanumeric() || "_./+,:=@%-".contains(c)) {
        return text;
    }
    let escaped: String =
        text.chars().flat_map(|c| [Some('\\').filter(|_| "\"\\$`".contains(c)), Some(c)]).flatten().collect();
    format!("\"{escaped}\"")
}

/// The termination event in every form: an action, and never the name of a channel or gate.
pub const EXIT_WORD: &str = "exit";

/// What is said of it with a direction.
pub const EXIT_DIRECTED: &str =
    "exit is the termination event and no channel, so it has no direction; write exit alone.";

/// What is said of it with values.
pub const EXIT_VALUED: &str =
    "no model text can hold a termination with values (as in exit !1); write exit alone, or choose another name.";

/// Whether a label is the termination event with values, as CADP writes it: `exit !1`.
pub fn exit_with_values(label: &str) -> bool {
    let rest = label.strip_prefix(EXIT_WORD).map(str::trim_start);
    rest.is_some_and(|values| values.len() > 1 && values.starts_with(['!', '?']))
}

/// The actions that are on no channel with a name.
fn without_channel(number: u8) -> Option<String> {
    match number {
        0 => Some("tau".to_string()),
        EXIT => Some(EXIT_WORD.to_string()),
        _ => None,
    }
}

/// An action in the readable form: `tau`, `exit`, `out a`, `in a`, or a gate's name alone.
pub fn action(number: u8, names: &Names) -> String {
    if let Some(word) = without_channel(number) {
        return word;
    }
    let channel = number / 2;
    let name = names.channel(channel);
    let written = spelled(&name);
    match (number % 2, names.is_gate(channel)) {
        (0, true) if name == "tau" => quoted(&name),
        (0, true) => written,
        (0, false) => format!("out {written}"),
        _ => format!("in {written}"),
    }
}

/// An action in short: `tau`, `exit`, `a!`, `a?`, or a gate's name alone.
pub fn short_action(number: u8, names: &Names) -> String {
    if let Some(word) = without_channel(number) {
        return word;
    }
    let name = names.channel(number / 2);
    match (number % 2, names.is_gate(number / 2)) {
        (0, true) => name,
        (0, false) => format!("{name}!"),
        _ => format!("{name}?"),
    }
}

/// Names of channels with commas.
pub fn channel_list(channels: &[u8], names: &Names) -> String {
    channels.iter().map(|c| spelled(&names.channel(*c))).collect::<Vec<_>>().join(", ")
}

/// Which verdict it is.
pub fn word(mode: Mode) -> &'static str {
    match mode {
        Mode::Strong => "strong",
        Mode::Weak => "weak",
    }
}
