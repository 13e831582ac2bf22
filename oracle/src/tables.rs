//! Generated tables for look-ups, whole and broken, and what is asked of them.

use crate::answer::MAX_TABLE;
use crate::generate::FORMER_BITS;
use crate::lookup::{codes, last_level, Ask, Slices};
use crate::model::MAX_BITS;
use crate::random::Random;

/// An entry, or what stands in every entry that is not named.
#[derive(Clone, Copy, Debug)]
pub struct Entry {
    pub level: u8,
    pub low: u32,
    pub high: u32,
}

/// Three slices of these lengths; entries past the end of a slice are not there.
#[derive(Clone, Debug)]
pub struct Table {
    pub lengths: [usize; 3],
    pub fill: Entry,
    pub entries: Vec<(usize, Entry)>,
}

const CODES: u64 = codes(MAX_BITS);
const FORMER_CODES: u64 = codes(FORMER_BITS);
const LAST_LEVEL: u8 = last_level(MAX_BITS);
const FORMER_LAST_LEVEL: u8 = last_level(FORMER_BITS);
/// The level of the constants, and the largest of 7 bits.
const CONSTANTS: u8 = 255;
const SEVEN_BITS: u8 = 127;
const EDGE_LEVELS: [u8; 8] = [
    FORMER_LAST_LEVEL,
    FORMER_LAST_LEVEL + 1,
    SEVEN_BITS,
    SEVEN_BITS + 1,
    LAST_LEVEL,
    LAST_LEVEL + 1,
    CONSTANTS - 1,
    CONSTANTS,
];
const LEVELS: usize = LAST_LEVEL as usize + 1;

impl Table {
    pub fn slices(&self) -> Slices {
        let [level, low, high] = self.lengths;
        let Entry { level: l, low: a, high: b } = self.fill;
        let mut slices = Slices { level: vec![l; level], low: vec![a; low], high: vec![b; high] };
        for &(index, entry) in &self.entries {
            put(&mut slices.level, index, entry.level);
            put(&mut slices.low, index, entry.low);
            put(&mut slices.high, index, entry.high);
        }
        slices
    }
}

fn put<T>(slice: &mut [T], index: usize, value: T) {
    if let Some(place) = slice.get_mut(index) {
        *place = value;
    }
}

/// A table of any sort; one in 32 is of the greatest length or longer by an entry.
pub fn any_table(random: &mut Random) -> Table {
    let most = random.pick(&[4, 20, LEVELS + 4]);
    let nodes = 1 + random.below(most);
    let spare = random.below(10);
    let length = match random.below(64) {
        0 => MAX_TABLE,
        1 => MAX_TABLE + 1,
        _ => 2 + nodes + spare,
    };
    let first = if random.once_in(2) { 2 } else { length - nodes };
    let mut table = ladder(random, length, first, nodes);
    for _ in 0..random.pick(&[0, 1, 1, 2, 5]) {
        damage(random, &mut table);
    }
    if random.once_in(8) {
        resize(random, &mut table.lengths);
    }
    table
}

/// So many nodes from an entry on, whose levels do not fall; children are constants or nodes of higher levels.
fn ladder(random: &mut Random, length: usize, first: usize, nodes: usize) -> Table {
    let mut levels: Vec<u8> = (0..nodes).map(|_| random.below(LEVELS) as u8).collect();
    levels.sort_unstable();
    let child = |random: &mut Random, level: u8| -> u32 {
        let above = levels.partition_point(|&other| other <= level);
        let constant = random.below(2);
        if above == nodes || random.once_in(6) {
            return constant as u32;
        }
        let near = (above + random.below(3)).min(nodes - 1);
        let any = above + random.below(nodes - above);
        (first + random.pick(&[near, near, any])) as u32
    };
    let node = |random: &mut Random, level: u8| Entry {
        level,
        low: child(random, level),
        high: child(random, level),
    };
    let mut entries: Vec<_> =
        levels.iter().enumerate().map(|(index, &level)| (first + index, node(random, level))).collect();
    if random.once_in(2) {
        entries.extend(
            [0, 1].map(|number| (number, Entry { level: 255, low: number as u32, high: number as u32 })),
        );
    }
    let fill = Entry { level: random.draw() as u8, low: random.draw() as u32, high: random.draw() as u32 };
    Table { lengths: [length; 3], fill, entries }
}

/// A level that no node has or that does not rise, or a child outside the slices or on a cycle.
fn damage(random: &mut Random, table: &mut Table) {
    let length = table.lengths[0] as u32;
    let place = random.below(table.entries.len().min(8));
    let any = random.below(table.entries.len());
    let place = random.pick(&[place, any]);
    let (other, own) = (table.entries[any], table.entries[place].0 as u32);
    let entry = &mut table.entries[place].1;
    let child = random.pick(&[length, length + 1, length - 1, u32::MAX, 1 << 31, own, own, other.0 as u32]);
    match random.below(4) {
        0 => entry.level = random.pick(&EDGE_LEVELS),
        1 => entry.level = random.pick(&[0, other.1.level, other.1.level]),
        2 => entry.low = child,
        _ => entry.high = child,
    }
}

fn resize(random: &mut Random, lengths: &mut [usize; 3]) {
    let length = lengths[0];
    let other = random.pick(&[0, 1, 2, length - 1, length + 1, MAX_TABLE, MAX_TABLE + 1]);
    if random.once_in(2) {
        *lengths = [other; 3];
    } else {
        lengths[random.below(3)] = other;
    }
}

/// Mostly a walk through the ladder from its start; at times a number at an edge or out of range.
pub fn any_ask(random: &mut Random, table: &Table) -> Ask {
    let length = table.lengths[0] as u64;
    let first = table.entries[0].0 as u64;
    let any = table.entries[random.below(table.entries.len())].0 as u64;
    let mut ask = Ask {
        root: random.pick(&[first, first, first, any]),
        action: random.below(64) as u64,
        codes: [0; 4].map(|_| random.draw() % CODES),
    };
    match random.below(12) {
        0 => ask.root = random.pick(&[0, 1, 2, length.wrapping_sub(1), length, length + 1]),
        1 => ask.root = random.pick(&[MAX_TABLE as u64, (1 << 32) + first, 1 << 32, (1 << 32) + 1, u64::MAX]),
        2 | 3 => edge_number(random, &mut ask),
        _ => {}
    }
    ask
}

/// An action or a code at an edge; at times from a constant, where both are judged all the same.
fn edge_number(random: &mut Random, ask: &mut Ask) {
    let codes = [0, FORMER_CODES, CODES - 1, CODES - 1, CODES, CODES, CODES + 1, 1 << 32, u64::MAX];
    ask.root = random.pick(&[ask.root, ask.root, 0, 1]);
    if random.once_in(2) {
        ask.action = random.pick(&[0, 62, 63, 64, 65, 127, 256, 1 << 32, u64::MAX]);
    } else {
        ask.codes[random.below(4)] = random.pick(&codes);
    }
}

#[cfg(test)]
mod tests {
    use std::collections::BTreeSet;

    use super::*;
    use crate::lookup::look_up;

    #[test]
    fn every_answer_of_a_look_up_comes_up() {
        let mut seen = BTreeSet::new();
        for case in 0..200 {
            let mut random = Random::of_case(37, case);
            let table = any_table(&mut random);
            let slices = table.slices();
            seen.extend((0..8).map(|_| look_up(&slices, &any_ask(&mut random, &table))));
        }
        assert_eq!(seen, [0, 1, 7, 10].into());
    }
}
