//! All steps from a state, read from the table that a comparison left.

use crate::limits::{ACTION_BITS, SLOTS};
use crate::table::Table;
use std::collections::HashMap;

/// The steps from a state, by action and next code, in no order that counts: every walk to 1 from a relation's root, with the now code
/// fixed and all other codes 0. The time goes with the steps that are taken, not with the codes that could be asked for.
#[derive(Debug)]
pub struct Steps<'t> {
    table: &'t Table,
    /// Where the levels of a bit of the now code stand; those of the next code are behind them.
    slot: u32,
    bits: u32,
    now: u64,
    /// Whether some walk from an entry ends at 1.
    alive: HashMap<u32, bool>,
    open: Vec<Open>,
}

/// A walk that goes on: its entry, how many bits are chosen, and these: the action's, then those of the next code.
#[derive(Debug)]
struct Open {
    entry: u32,
    rank: u32,
    chosen: u64,
}

impl<'t> Steps<'t> {
    pub(crate) fn new(table: &'t Table, root: u32, slot: u32, bits: u32, now: u64) -> Steps<'t> {
        let mut steps = Steps { table, slot, bits, now, alive: HashMap::new(), open: Vec::new() };
        steps.push(root, 0, 0);
        steps
    }

    fn push(&mut self, entry: u32, rank: u32, chosen: u64) {
        let entry = self.forward(entry);
        if self.is_alive(entry) {
            self.open.push(Open { entry, rank, chosen });
        }
    }

    /// Over nodes whose bit is fixed, to one whose bit is chosen or to a constant. Levels rise from node to child.
    fn forward(&self, mut entry: u32) -> u32 {
        while let Some((level, [low, high])) = self.table.node(entry) {
            if self.rank(level).is_some() {
                break;
            }
            entry = if self.fixed(level) { high } else { low };
        }
        entry
    }

    fn is_alive(&mut self, entry: u32) -> bool {
        let entry = self.forward(entry);
        let Some((_, [low, high])) = self.table.node(entry) else { return entry == 1 };
        if let Some(known) = self.alive.get(&entry) {
            return *known;
        }
        let found = self.is_alive(low) || self.is_alive(high);
        self.alive.insert(entry, found);
        found
    }

    /// Which of the bits that are chosen stands at a level.
    fn rank(&self, level: u32) -> Option<u32> {
        match level.checked_sub(ACTION_BITS) {
            None => Some(level),
            Some(place) if place % SLOTS == self.slot + 1 && place / SLOTS < self.bits => {
                Some(ACTION_BITS + place / SLOTS)
            }
            Some(_) => None,
        }
    }

    /// The bit at any other level.
    fn fixed(&self, level: u32) -> bool {
        let place = level - ACTION_BITS;
        place % SLOTS == self.slot && self.now >> (place / SLOTS) & 1 == 1
    }
}

impl Iterator for Steps<'_> {
    type Item = (u64, u64);

    fn next(&mut self) -> Option<(u64, u64)> {
        loop {
            let Open { entry, rank, chosen } = self.open.pop()?;
            if rank == ACTION_BITS + self.bits {
                return Some((chosen & ((1 << ACTION_BITS) - 1), chosen >> ACTION_BITS));
            }
            let [low, high] = match self.table.node(entry) {
                Some((level, children)) if self.rank(level) == Some(rank) => children,
                _ => [entry, entry],
            };
            self.push(high, rank + 1, chosen | 1 << rank);
            self.push(low, rank + 1, chosen);
        }
    }
}
