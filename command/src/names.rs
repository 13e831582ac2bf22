//! The name table of a model: names of channels, processes and states, kept beside the hexadecimal text.

use crate::aut::Label;
use crate::frames::{Frame, Model, EXIT_CHANNEL, MOST_CHANNEL};
use crate::origin::{Kind, Origin, Read};
use crate::outcome::{misplaced, Misplaced};
use crate::sha256;
use crate::sorts;
use crate::tokens::{tokens, Placed};
use crate::words::{exit_with_values, spelled, EXIT_VALUED, EXIT_WORD};
use std::collections::{BTreeMap, BTreeSet};

#[derive(Clone, Debug, PartialEq, Eq)]
pub struct Channel {
    pub name: String,
    /// A gate is a channel whose outputs are written without a direction.
    pub gate: bool,
}

#[derive(Clone, Debug, Default, PartialEq, Eq)]
pub struct Names {
    pub channels: BTreeMap<u8, Channel>,
    pub processes: BTreeMap<usize, String>,
    pub states: BTreeMap<(usize, usize), String>,
    pub origin: Origin,
}

/// Why a channel can't have the name: it is the termination event's, or an .aut file, which has no escapes, would give another one back.
pub fn unfit(name: &str, gate: bool) -> Option<&'static str> {
    if name == EXIT_WORD {
        return Some("exit is the termination event, action 62, and no channel or gate has this name. If it is meant, build the text anew from its source; else choose another name.");
    }
    if exit_with_values(&format!("{name}!")) {
        return Some(EXIT_VALUED);
    }
    if name.trim() != name {
        return Some("a channel's name can't start or end with a space; leave it out.");
    }
    if gate && Label::parse(name) != Ok(Label::Gate(name.to_string())) {
        return Some("a gate can't have the name i or tau, nor one that starts or ends with ! or ?; choose another name.");
    }
    None
}

impl Names {
    pub fn channel(&self, number: u8) -> String {
        self.channels.get(&number).map_or_else(|| format!("c{number}"), |c| c.name.clone())
    }

    pub fn is_gate(&self, number: u8) -> bool {
        self.channels.get(&number).is_some_and(|c| c.gate)
    }

    pub fn process(&self, line: usize) -> String {
        self.processes.get(&line).cloned().unwrap_or_else(|| format!("p{line}"))
    }

    pub fn state(&self, line: usize, state: usize) -> String {
        self.states.get(&(line, state)).cloned().unwrap_or_else(|| state.to_string())
    }

    /// The same with a name for everything in the model, different things having different names.
    pub fn completed(&self, model: &Model) -> Names {
        let mut all = self.clone();
        let mut taken: BTreeSet<String> = self.channels.values().map(|c| c.name.clone()).collect();
        for number in model.channels() {
            let channel = || Channel { name: free(&mut taken, format!("c{number}")), gate: false };
            all.channels.entry(number).or_insert_with(channel);
        }
        let mut taken: BTreeSet<String> = self.processes.values().cloned().collect();
        for (line, frame) in model.frames.iter().enumerate() {
            let name = || free(&mut taken, format!("p{line}"));
            all.processes.entry(line).or_insert_with(name);
            if let Frame::Leaf { states, .. } = frame {
                all.complete_states(line, usize::from(*states));
            }
        }
        all
    }

    fn complete_states(&mut self, line: usize, states: usize) {
        let mut taken: BTreeSet<String> =
            self.states.range((line, 0)..(line + 1, 0)).map(|(_, n)| n.clone()).collect();
        for state in 0..states {
            let name = || free(&mut taken, state.to_string());
            self.states.entry((line, state)).or_insert_with(name);
        }
    }

    /// The table as a file.
    pub fn print(&self, of: &str) -> String {
        let mut text = format!("# The names of the numbers in {}.\n", of.replace(char::is_control, "?"));
        text += &self.origin.print();
        for (number, channel) in &self.channels {
            let head = if channel.gate { "gate" } else { "channel" };
            text += &format!("{head} {number} {}\n", spelled(&channel.name));
        }
        for (line, name) in &self.processes {
            text += &format!("process {line} {}\n", spelled(name));
        }
        for ((line, state), name) in &self.states {
            text += &format!("state {line} {state} {}\n", spelled(name));
        }
        text
    }

    /// Reads a table, and sees that it speaks of things that the model has, if one is given.
    pub fn parse(text: &str, model: Option<&Model>) -> Result<Names, Misplaced> {
        let mut names = Names::default();
        for (index, line) in text.lines().enumerate() {
            let words = tokens(index + 1, line)?;
            if !words.is_empty() {
                names.entry(&Entry { number: index + 1, words, model })?;
            }
        }
        Ok(names)
    }

    fn entry(&mut self, entry: &Entry) -> Result<(), Misplaced> {
        let column = entry.words[0].column;
        let fresh = if entry.head("channel", 3) || entry.head("gate", 3) {
            self.channel_entry(entry)?
        } else if entry.head("process", 3) {
            let line = entry.number_at(1)?;
            entry.wants_line(line)?;
            let name = entry.name_at(2)?;
            !self.processes.values().any(|n| *n == name) && self.processes.insert(line, name).is_none()
        } else if entry.head("state", 4) {
            self.state_entry(entry)?
        } else if entry.head("text", 2) {
            self.origin.text.replace(entry.digest_at(1)?).is_none()
        } else if entry.head("source", 4) {
            self.source_entry(entry)?
        } else {
            let forms =
                "'channel NUMBER NAME', 'gate NUMBER NAME', 'process LINE NAME', 'state LINE NUMBER NAME', \
                         'text DIGEST' or 'source KIND FILE DIGEST'";
            return misplaced(
                entry.number,
                column,
                format!("a line of a name table is {forms}; correct this line."),
            );
        };
        if !fresh {
            return misplaced(
                entry.number,
                column,
                "this number or name stands above already; remove one of them.",
            );
        }
        Ok(())
    }

    fn channel_entry(&mut self, entry: &Entry) -> Result<bool, Misplaced> {
        let number = entry.channel_at(1)?;
        let name = entry.name_at(2)?;
        let gate = entry.words[0].is("gate");
        if let Some(sentence) = unfit(&name, gate) {
            return misplaced(entry.number, entry.words[2].column, sentence);
        }
        if gate && entry.model.is_some_and(|model| sorts::inputs(model).contains(&number)) {
            let sentence = format!(
                "a gate has no inputs, and the model has some on {number}; write 'channel' for 'gate'."
            );
            return misplaced(entry.number, entry.words[0].column, sentence);
        }
        let known = self.channels.values().any(|c| c.name == name);
        Ok(!known && self.channels.insert(number, Channel { name, gate }).is_none())
    }

    fn source_entry(&mut self, entry: &Entry) -> Result<bool, Misplaced> {
        let (kind, file, digest) = (entry.kind_at(1)?, entry.name_at(2)?.into(), entry.digest_at(3)?);
        let known = self.origin.sources.iter().any(|read| read.file == file);
        self.origin.sources.push(Read { kind, file, digest });
        Ok(!known)
    }

    fn state_entry(&mut self, entry: &Entry) -> Result<bool, Misplaced> {
        let (line, state, name) = (entry.number_at(1)?, entry.number_at(2)?, entry.name_at(3)?);
        entry.wants_line(line)?;
        if let Some(model) = entry.model {
            let has =
                matches!(&model.frames[line], Frame::Leaf { states, .. } if state < usize::from(*states));
            if !has {
                let sentence =
                    format!("line {line} of the model is no leaf with a state {state}. {OUTDATED}");
                return misplaced(entry.number, entry.words[1].column, sentence);
            }
        }
        let known = self.states.range((line, 0)..(line + 1, 0)).any(|(_, n)| *n == name);
        Ok(!known && self.states.insert((line, state), name).is_none())
    }
}

const OUTDATED: &str = "The table may belong to another text: write both anew, or move the table away.";

/// A line of a name table.
struct Entry<'a> {
    number: usize,
    words: Vec<Placed>,
    model: Option<&'a Model>,
}

impl Entry<'_> {
    fn head(&self, word: &str, length: usize) -> bool {
        self.words[0].is(word) && self.words.len() == length
    }

    fn number_at(&self, index: usize) -> Result<usize, Misplaced> {
        let number = self.words[index].name().and_then(|w| w.parse::<u16>().ok());
        self.due(index, number.map(usize::from), "a number is due here; write one in decimal digits.")
    }

    fn channel_at(&self, index: usize) -> Result<u8, Misplaced> {
        let number = u8::try_from(self.number_at(index)?).ok();
        let sentence = match number {
            Some(EXIT_CHANNEL) => {
                format!(
                    "{EXIT_CHANNEL} is the termination event, which is always called exit; remove this line."
                )
            }
            _ => format!("channels have the numbers 1 to {MOST_CHANNEL}; write one of these."),
        };
        self.due(index, number.filter(|n| (1..=MOST_CHANNEL).contains(n)), &sentence)
    }

    fn name_at(&self, index: usize) -> Result<String, Misplaced> {
        let name = self.words[index].name().map(str::to_string);
        self.due(index, name, "a name is due here; write one, in quotes if need be.")
    }

    fn digest_at(&self, index: usize) -> Result<String, Misplaced> {
        let digest = self.words[index].name().filter(|word| sha256::is_digest(word)).map(str::to_string);
        self.due(index, digest, "a digest of 64 hexadecimal digits is due here; build the text anew.")
    }

    fn kind_at(&self, index: usize) -> Result<Kind, Misplaced> {
        let kind = self.words[index].name().and_then(Kind::of);
        self.due(index, kind, "the kind of a source is model or aut; write one of these.")
    }

    /// What a word was read as, or what is due in its place.
    fn due<T>(&self, index: usize, read: Option<T>, sentence: &str) -> Result<T, Misplaced> {
        read.ok_or_else(|| Misplaced::new(self.number, self.words[index].column, sentence))
    }

    fn wants_line(&self, line: usize) -> Result<(), Misplaced> {
        match self.model {
            Some(model) if line >= model.frames.len() => {
                let sentence = format!("the model has no line {line}. {OUTDATED}");
                misplaced(self.number, self.words[1].column, sentence)
            }
            _ => Ok(()),
        }
    }
}

/// The name, with a line under it as often as it is taken.
fn free(taken: &mut BTreeSet<String>, mut name: String) -> String {
    while taken.contains(&name) {
        name.push('_');
    }
    taken.insert(name.clone());
    name
}
