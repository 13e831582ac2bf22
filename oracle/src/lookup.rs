//! The look-up over any three slices, written from document 01's table of calls and document 02's point 1.

use crate::answer::MAX_TABLE;
use crate::model::MAX_BITS;

const MAX_ACTION: u64 = 63;
const CODES: u64 = codes(MAX_BITS);
const LAST_LEVEL: u8 = last_level(MAX_BITS);

/// The number of codes of so many bits.
pub const fn codes(bits: u32) -> u64 {
    1 << bits
}

/// The highest level where codes have so many bits: 6 levels of the action come first, then 6 for each bit.
pub const fn last_level(bits: u32) -> u8 {
    (5 + 6 * bits) as u8
}

/// The three slices of a table, of any lengths and content.
#[derive(Clone, Debug, Default)]
pub struct Slices {
    pub level: Vec<u8>,
    pub low: Vec<u32>,
    pub high: Vec<u32>,
}

/// Codes in the order left now, left next, right now, right next.
#[derive(Clone, Copy, Debug)]
pub struct Ask {
    pub root: u64,
    pub action: u64,
    pub codes: [u64; 4],
}

/// 0 or 1, or refusal 7 or 10.
pub fn look_up(slices: &Slices, ask: &Ask) -> u64 {
    let length = slices.level.len();
    if slices.low.len() != length || slices.high.len() != length || !(2..=MAX_TABLE).contains(&length) {
        return 7;
    }
    if ask.action > MAX_ACTION || ask.codes.iter().any(|&code| code >= CODES) {
        return 10;
    }
    let mut last = None;
    let mut entry = ask.root;
    while entry > 1 {
        let Some(index) = usize::try_from(entry).ok().filter(|&index| index < length) else {
            return 10;
        };
        let level = slices.level[index];
        if level > LAST_LEVEL || last.is_some_and(|last| level <= last) {
            return 10;
        }
        last = Some(level);
        let child = if bit(ask, level) { slices.high[index] } else { slices.low[index] };
        entry = child.into();
    }
    entry
}

/// The value of a level's variable: a bit of the action or of a code; middle bits are 0.
fn bit(ask: &Ask, level: u8) -> bool {
    if level < 6 {
        return ask.action >> level & 1 == 1;
    }
    let (place, variable) = ((level - 6) / 6, (level - 6) % 6);
    let code = match variable {
        0 => ask.codes[0],
        1 => ask.codes[1],
        3 => ask.codes[2],
        4 => ask.codes[3],
        _ => 0,
    };
    code >> place & 1 == 1
}

#[cfg(test)]
mod tests {
    use super::*;

    const AT_0: Ask = Ask { root: 2, action: 0, codes: [0; 4] };

    fn one_node(level: u8, low: u32, high: u32) -> Slices {
        Slices { level: vec![255, 255, level], low: vec![0, 1, low], high: vec![0, 1, high] }
    }

    #[test]
    fn ends_are_those_of_24_bits() {
        assert_eq!((CODES, LAST_LEVEL), (16_777_216, 149));
    }

    #[test]
    fn values_follow_the_bits() {
        assert_eq!(look_up(&one_node(0, 0, 1), &Ask { action: 1, ..AT_0 }), 1);
        assert_eq!(look_up(&one_node(0, 0, 1), &Ask { action: 2, ..AT_0 }), 0);
        for (variable, code) in [(0, 0), (1, 1), (3, 2), (4, 3)] {
            let mut ask = AT_0;
            ask.codes[code] = CODES / 2;
            assert_eq!(look_up(&one_node(LAST_LEVEL - 5 + variable, 0, 1), &ask), 1);
            ask.codes[code] -= 1;
            assert_eq!(look_up(&one_node(LAST_LEVEL - 5 + variable, 0, 1), &ask), 0);
        }
        let full = Ask { root: 2, action: 63, codes: [CODES - 1; 4] };
        assert_eq!(look_up(&one_node(8, 0, 1), &full), 0);
        assert_eq!(look_up(&one_node(LAST_LEVEL, 0, 1), &full), 0);
    }

    #[test]
    fn refusals_in_their_order() {
        let table = one_node(0, 0, 2);
        assert_eq!(look_up(&table, &Ask { action: 1, ..AT_0 }), 10);
        assert_eq!(look_up(&table, &Ask { action: 64, root: 0, ..AT_0 }), 10);
        assert_eq!(look_up(&table, &Ask { codes: [0, 0, 0, CODES], root: 1, ..AT_0 }), 10);
        assert_eq!(look_up(&table, &Ask { root: 3, ..AT_0 }), 10);
        assert_eq!(look_up(&one_node(LAST_LEVEL + 1, 0, 1), &AT_0), 10);
        assert_eq!(look_up(&one_node(LAST_LEVEL + 1, 0, 1), &Ask { root: 1, ..AT_0 }), 1);
        let short = Slices { high: vec![0, 1], ..one_node(0, 0, 1) };
        assert_eq!(look_up(&short, &Ask { action: 64, ..AT_0 }), 7);
        assert_eq!(look_up(&Slices::default(), &AT_0), 7);
    }
}
