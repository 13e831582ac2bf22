//! Refusals in words: number, side, line, the rule, the line itself and what to do.

use crate::culprit::{self, Culprit, Line};
use crate::files;
use crate::full;
use crate::outcome::grouped;
use crate::proved::Lent;
use crate::words::word;
use seipolku::frames::MOST_USES;
use seipolku::{Comparison, Fault, Mode, Refusal, Side, MAX_BITS};
use std::path::Path;

/// The number that stands in the place of a verdict where none falls by the limit; it refuses no comparison.
pub const UNDECIDED: u64 = 9;

/// What a comparison was called with.
pub struct Call<'a> {
    pub files: [&'a Path; 2],
    pub texts: [&'a [u8]; 2],
    pub entries: u64,
    pub limit: u64,
    /// The verdicts that are asked for.
    pub modes: &'a [Mode],
}

/// The rule that is broken.
pub fn rule(refusal: &Refusal) -> String {
    let rule = match refusal.fault.number() {
        1 => "a text is made of capital hexadecimal digits, two for a byte; it is not empty, and every line ends with a newline",
        2 => "a line has 2 to 255 bytes",
        3 => "byte 0 of a line is the line's number, counted from 0, and a text has at most 64 lines",
        4 => "byte 1 of a line is its kind, 01 to 08, and each kind has its own length",
        5 => "a state count, state, action, channel or operand is out of range",
        6 => {
            return format!("a line's process has at most {MAX_BITS} bits of state and {MOST_USES} uses of leaves")
        }
        7 => "a table has 2 to 1,048,576 entries",
        8 => "the comparison needs more nodes than fit into the table",
        _ => "a look-up left the table",
    };
    rule.to_string()
}

fn what_to_do(refusal: &Refusal) -> &'static str {
    match refusal.fault.number() {
        1 | 2 | 4 | 5 => "correct the line, or write the model in the readable form and run 'seipolku build'",
        3 => "number the lines from 00 upward and use at most 64, or write the model in the readable form and run 'seipolku build'",
        6 => "use fewer or smaller leaves in this line; n states take as many bits as n - 1 has, enable adds one bit and disable two",
        7 => "give --nodes a number from 2 to 1,048,576",
        _ => "report this with the models",
    }
}

pub fn side(side: Side) -> &'static str {
    match side {
        Side::Left => "left",
        Side::Right => "right",
        Side::Neither => "neither",
    }
}

/// The refusal in a verdict's line.
pub fn short(refusal: &Refusal) -> String {
    let number = refusal.fault.number();
    let words = match (refusal.side, number) {
        (Side::Neither, 7) => "there is no such table".to_string(),
        (Side::Neither, 8) => "the table is full".to_string(),
        (Side::Neither, _) => rule(refusal),
        _ => format!("line {} of the {} model", refusal.line, side(refusal.side)),
    };
    format!("{number}, {words}")
}

/// The refusal of a comparison, several lines long. Its table is free then, and may be asked what helps.
pub fn of_comparison(refusal: &Refusal, call: &Call, table: &mut Lent) -> String {
    let number = refusal.fault.number();
    let (file, text) = match refusal.side {
        Side::Neither => return of_neither(refusal, call, table),
        Side::Left => (call.files[0], call.texts[0]),
        Side::Right => (call.files[1], call.texts[1]),
    };
    format!(
        "Refusal {number}, line {} of the {} model (counted from 0): {}.\n{}What to do: {}.\n",
        refusal.line,
        side(refusal.side),
        rule(refusal),
        shown(refusal, file, text),
        advice(refusal, file, text)
    )
}

/// What is said of verdicts that did not fall by the limit.
pub fn of_limit(modes: &[Mode], both: &Comparison, limit: u64) -> String {
    let rule = match modes {
        [mode] => format!("{} verdict: it was not reached within the limit of rounds", word(*mode)),
        _ => "both verdicts: neither was reached within the limit of rounds".to_string(),
    };
    let known = match both.strong.equal() {
        true => " The strong verdict is equal, and strongly equal models are weakly equal too.",
        false => "",
    };
    format!(
        "Refusal {UNDECIDED}, {rule}.\n  The limit is {}.{known}\n\
         What to do: give a larger limit with --limit N. More rounds need more nodes, which may lead to refusal 8.\n",
        grouped(limit)
    )
}

fn of_neither(refusal: &Refusal, call: &Call, table: &mut Lent) -> String {
    let entries = call.entries;
    let (detail, advice) = match refusal.fault {
        Fault::Full(nodes) => (full::detail(nodes, entries), full::advice(nodes, call, table)),
        Fault::Table => {
            (format!("  The table's length is {}.\n", grouped(entries)), what_to_do(refusal).to_string())
        }
        _ => (String::new(), what_to_do(refusal).to_string()),
    };
    format!("Refusal {}: {}.\n{detail}What to do: {advice}.\n", refusal.fault.number(), rule(refusal))
}

/// The refusal where the steps of one accepted model are listed. `smaller` says what helps where the largest table is full.
pub fn of_steps(refusal: &Refusal, model: &str, smaller: &str) -> String {
    let (rule, advice) = match refusal.nodes() {
        Some(nodes) => (full::of_steps(nodes), smaller),
        None => (rule(refusal), what_to_do(refusal)),
    };
    format!("{model}: refusal {}: {rule}. What to do: {advice}.", refusal.fault.number())
}

/// The refusal of one text, which is that of a line, several lines long.
pub fn of_text(refusal: &Refusal, file: &Path, text: &[u8]) -> String {
    let number = refusal.fault.number();
    let column = offending(refusal, text).and_then(|(_, found)| found).map_or(1, |found| found.column + 1);
    format!(
        "{}, line {}, column {column}: refusal {number}, line {} of the model (counted from 0): {}.\n{}What to do: {}.",
        file.display(),
        refusal.line + 1,
        refusal.line,
        rule(refusal),
        shown(refusal, file, text),
        advice(refusal, file, text)
    )
}

const MOST_SHOWN: usize = 100;

/// The refused line and the part of it that is wrong; nothing for an empty text.
fn offending<'a>(refusal: &Refusal, text: &'a [u8]) -> Option<(&'a [u8], Option<Culprit>)> {
    let index = usize::try_from(refusal.line).ok().filter(|_| !text.is_empty())?;
    let ends: Vec<usize> = (0..text.len()).filter(|at| text[*at] == b'\n').collect();
    let start = index.checked_sub(1).map_or(Some(0), |before| Some(ends.get(before)? + 1))?;
    let end = ends.get(index).copied();
    let bytes = &text[start..end.unwrap_or(text.len())];
    let up_to = &text[..end.map_or(text.len(), |end| end + 1)];
    let line = Line { number: refusal.line, bytes, ended: end.is_some(), up_to };
    Some((bytes, culprit::find(refusal.fault.number(), &line)))
}

/// The offending line with a mark below the part that is wrong.
fn shown(refusal: &Refusal, file: &Path, text: &[u8]) -> String {
    let Some((line, found)) = offending(refusal, text) else {
        return format!("  {} is empty.\n", file.display());
    };
    let label = format!("  {}, line {}: ", file.display(), refusal.line + 1);
    let from = found.as_ref().map_or(0, |c| c.column.saturating_sub(MOST_SHOWN / 2));
    let part = &line[from.min(line.len())..line.len().min(from + MOST_SHOWN)];
    let before = if from > 0 { ".." } else { "" };
    let after = if from + part.len() < line.len() { ".." } else { "" };
    let printable: String =
        part.iter().map(|b| if matches!(b, b' '..=b'~') { char::from(*b) } else { '?' }).collect();
    let mut words = format!("{label}{before}{printable}{after}\n");
    if let Some(culprit) = found {
        let blank = " ".repeat(label.chars().count() + before.len() + culprit.column - from);
        let marks =
            "^".repeat(culprit.length.clamp(1, MOST_SHOWN - (culprit.column - from).min(MOST_SHOWN - 1)));
        words += &format!("{blank}{marks} {}\n", culprit.words);
    }
    words
}

/// What to do about a refused text; one in another form needs no correction.
fn advice(refusal: &Refusal, file: &Path, text: &[u8]) -> String {
    let ending = file.extension().map(|e| e.to_string_lossy().into_owned()).unwrap_or_default();
    let renamed = |ending: &str| files::beside(file, ending, None);
    let (form, command) = match (&ending[..], first_word(text)) {
        ("names", _) | ("hex", "channel" | "gate" | "process" | "state" | "text" | "source") => {
            return format!(
                "this looks like a name table; give the model text that it belongs to, such as {}",
                renamed("hex").display()
            )
        }
        ("aut", _) | (_, "des") => ("aut", "from-aut"),
        ("model", _) | (_, "channels" | "gates" | "leaf" | "#") => ("model", "build"),
        _ => return what_to_do(refusal).to_string(),
    };
    let looks = if form == "aut" { "an .aut file" } else { "the readable form" };
    let (rename, file) = match &ending[..] {
        "hex" => (format!("rename it to {}, ", renamed(form).display()), renamed(form)),
        _ => (String::new(), file.to_path_buf()),
    };
    format!(
        "this looks like {looks}: {rename}run 'seipolku {command} {}' and take the .hex file",
        file.display()
    )
}

/// The letters at the start of the first line that is no remark, or a remark's sign.
fn first_word(text: &[u8]) -> &str {
    let start = |line: &'_ [u8]| line.iter().position(|b| !b.is_ascii_whitespace());
    let mut lines = text.split(|b| *b == b'\n').filter_map(|line| Some(&line[start(line)?..]));
    let Some(line) = lines.find(|line| !line.starts_with(b"#")) else {
        return if text.starts_with(b"#") { "#" } else { "" };
    };
    let length = line.iter().take_while(|b| b.is_ascii_alphabetic()).count();
    std::str::from_utf8(&line[..length]).unwrap_or("")
}
