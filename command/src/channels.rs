//! Channels are compared by number. This says whether the names of two models' channels mean the same by it.

use crate::load::Loaded;
use crate::names::{Channel, Names};
use crate::outcome::{fail, Failure};

/// What a comparison of two models takes a channel by.
pub struct Basis {
    /// Both models name their channels, and mean the same.
    pub named: bool,
    /// The verdict has to say that it was by number.
    pub said: bool,
    pub notes: Vec<String>,
}

impl Basis {
    /// For a line with a verdict.
    pub fn words(&self) -> &'static str {
        if self.said {
            ", channels by number"
        } else {
            ""
        }
    }

    pub fn json(&self) -> &'static str {
        if self.named {
            "by name"
        } else {
            "by number"
        }
    }
}

/// Refuses two models whose name tables disagree, unless they are compared by number all the same.
pub fn basis(models: &[Loaded; 2], by_number: bool) -> Result<Basis, Failure> {
    let empty = Names::default();
    let tables = [0, 1].map(|side| models[side].table.as_ref().unwrap_or(&empty));
    let found = disagreements(tables[0], tables[1]).join("; ");
    if !found.is_empty() && !by_number {
        return fail(format!(
            "channels are compared by number, and the name tables disagree: {found}. Build both files together, or one with --names \
             and the other's table; or compare by number all the same with --by-number."
        ));
    }
    let mut notes = Vec::new();
    if !found.is_empty() {
        notes.push(format!(
            "note: channels are compared by number, though the name tables disagree: {found}."
        ));
    }
    let lacking = [0, 1].map(|side| lacks(&models[side]));
    let naming = tables.map(|names| !names.channels.is_empty());
    for side in [0, 1].into_iter().filter(|side| lacking[*side] && naming[1 - side]) {
        notes.push(format!(
            "note: {} does not name its channels, so they are compared by number.",
            models[side].path.display()
        ));
    }
    let named = !by_number && lacking == [false, false];
    Ok(Basis { named, said: by_number || !notes.is_empty(), notes })
}

/// Whether the model has a channel that no name table names.
fn lacks(model: &Loaded) -> bool {
    let named = |c: &u8| model.table.as_ref().is_some_and(|names| names.channels.contains_key(c));
    !model.model.channels().iter().all(named)
}

/// Numbers with two names, names with two numbers, and names that are a gate on one side only.
fn disagreements(left: &Names, right: &Names) -> Vec<String> {
    let mut found = Vec::new();
    for (number, channel) in &left.channels {
        if let Some(other) = right.channels.get(number).filter(|other| other.name != channel.name) {
            found.push(format!(
                "{number} is '{}' on the left and '{}' on the right",
                channel.name, other.name
            ));
        }
        let Some((other, same)) = right.channels.iter().find(|(_, c)| c.name == channel.name) else {
            continue;
        };
        if other != number {
            found.push(format!("'{}' is {number} on the left and {other} on the right", channel.name));
        }
        if same.gate != channel.gate {
            let [one, two] = [channel, same].map(kind);
            found.push(format!("'{}' is {one} on the left and {two} on the right", channel.name));
        }
    }
    found
}

fn kind(channel: &Channel) -> &'static str {
    if channel.gate {
        "a gate"
    } else {
        "a channel with directions"
    }
}
