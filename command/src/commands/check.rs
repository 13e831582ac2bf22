//! `check`: whether the library accepts a text.

use crate::arguments::{Form, Given};
use crate::files;
use crate::frames::{Frame, Model};
use crate::load::{decoded, names_beside};
use crate::origin::Checked;
use crate::outcome::{counted, Answer, Outcome, REFUSED};
use crate::proved;
use crate::refusals;
use crate::space::Space;
use std::path::Path;

pub const FORM: Form = Form { command: "check", values: &[], flags: &[] };

pub fn run(given: &Given) -> Answer {
    let path = given.one_file()?;
    let text = files::read(path)?;
    if let Some(refusal) = proved::refusal(&text) {
        let words = refusals::of_text(&refusal, path, &text);
        return Ok(Outcome { text: words + "\n", notes: Vec::new(), status: REFUSED });
    }
    let model = decoded(path, &text)?;
    let mut outcome = Outcome::text(format!("{}: accepted: {}.\n", path.display(), size(&model)));
    match names_beside(path, &model) {
        Err(failure) => outcome.notes.push(format!("note: {failure}")),
        Ok(None) => {}
        Ok(Some(names)) => {
            let checked = Checked { path, text: &text, names: &names };
            checked.fresh(None)?;
            outcome.notes.extend(checked.missing().map(|file| missing(path, &file)));
        }
    }
    Ok(outcome)
}

fn missing(path: &Path, source: &Path) -> String {
    format!(
        "note: {} was built from {}, which is not there; whether it has changed can't be told.",
        path.display(),
        source.display()
    )
}

/// Lines, bits, leaf uses and states of the last line's process. Bits that tell which operand is alive are given beside all of them.
pub fn size(model: &Model) -> String {
    let space = Space::of(model);
    let added = match space.added() {
        0 => String::new(),
        bits => format!(" ({bits} added)"),
    };
    let leaves = model.frames.iter().filter(|f| matches!(f, Frame::Leaf { .. })).count();
    [
        counted(model.frames.len() as u64, "line"),
        counted(leaves as u64, "leaf line"),
        counted(space.parts.len() as u64, "leaf use"),
        counted(u64::from(space.bits()), "bit") + &added,
        counted(space.states(), "state"),
    ]
    .join(", ")
}
