//! Numbers for channel names, one numbering for all files that are built together.

use crate::frames::MOST_CHANNEL;
use crate::names::{unfit, Channel, Names};

#[derive(Default)]
struct Entry {
    name: String,
    gate: Option<bool>,
    number: Option<u8>,
}

/// Names in the order in which they came, some with a number of their own.
#[derive(Default)]
pub struct Numbering {
    entries: Vec<Entry>,
}

impl Numbering {
    /// The numbers of a name table.
    pub fn of(names: &Names) -> Numbering {
        let entry = |(number, channel): (&u8, &Channel)| Entry {
            name: channel.name.clone(),
            gate: None,
            number: Some(*number),
        };
        Numbering { entries: names.channels.iter().map(entry).collect() }
    }

    /// Notes that a name is used, as a gate or as a channel with directions.
    pub fn declare(&mut self, name: &str, gate: bool, number: Option<u8>) -> Result<(), String> {
        if let Some(sentence) = unfit(name, gate) {
            return Err(sentence.to_string());
        }
        if let (Some(number), Some(other)) = (number, self.entries.iter().find(|e| e.number == number)) {
            if other.name != name {
                return Err(format!(
                    "channel {number} is '{}' already; give '{name}' another number.",
                    other.name
                ));
            }
        }
        let entry = self.entry(name)?;
        match entry.gate {
            Some(known) if known != gate => {
                return Err(format!(
                    "'{name}' stands with a direction in one place and without one in another; write it with ! or ? \
                     (out or in) everywhere, or nowhere."
                ))
            }
            _ => entry.gate = Some(gate),
        }
        match (entry.number, number) {
            (Some(known), Some(wanted)) if known != wanted => Err(format!(
                "'{name}' has the number {known} already, not {wanted}; give it one number everywhere."
            )),
            (None, Some(wanted)) => {
                entry.number = Some(wanted);
                Ok(())
            }
            _ => Ok(()),
        }
    }

    fn entry(&mut self, name: &str) -> Result<&mut Entry, String> {
        let index = match self.entries.iter().position(|e| e.name == name) {
            Some(index) => index,
            None if self.entries.len() >= usize::from(MOST_CHANNEL) => {
                return Err(format!(
                    "'{name}' is one channel too many: there are at most {MOST_CHANNEL}. Use fewer names, or build fewer files together."
                ))
            }
            None => {
                self.entries.push(Entry { name: name.to_string(), gate: None, number: None });
                self.entries.len() - 1
            }
        };
        Ok(&mut self.entries[index])
    }

    /// Gives numbers to the names that have none, in their order: first to c1 to c30, as channels without a name are written, their
    /// own one if it is free, then to the others the least free one. There are enough for all names.
    pub fn settle(&mut self) {
        self.fill(|name, number| name == format!("c{number}"));
        self.fill(|_, _| true);
    }

    fn fill(&mut self, fits: impl Fn(&str, u8) -> bool) {
        for index in 0..self.entries.len() {
            let Entry { name, number: None, .. } = &self.entries[index] else { continue };
            let free = |n: &u8| fits(name, *n) && self.entries.iter().all(|e| e.number != Some(*n));
            self.entries[index].number = (1..=MOST_CHANNEL).find(free);
        }
    }

    pub fn number(&self, name: &str) -> Option<u8> {
        self.entries.iter().find(|e| e.name == name).and_then(|e| e.number)
    }

    /// The numbered channels that are in the list, as a name table has them.
    pub fn named(&self, numbers: &[u8]) -> impl Iterator<Item = (u8, Channel)> + '_ {
        let numbers = numbers.to_vec();
        self.entries.iter().filter_map(move |e| {
            let number = e.number.filter(|n| numbers.contains(n))?;
            Some((number, Channel { name: e.name.clone(), gate: e.gate.unwrap_or(false) }))
        })
    }
}
