//! What the model of a text is: stored texts, and the leaves' places against look-ups.

mod common;

use common::{repository, Vector, LIMIT};
use seipolku::frames::{Frame, Lines};
use seipolku::{model, Layout, LeafUse, Model, Side, Table, MAX_BITS};
use std::fs;

fn leaf(line: usize, shift: u32, width: u32, states: u64) -> LeafUse {
    LeafUse { line, shift, width, states }
}

#[test]
fn a_stored_model() {
    let text = fs::read(repository("models/gas_closed_right.hex")).unwrap();
    let Model { bits, lines, uses, states, layout } = model(&text).unwrap();
    assert_eq!((bits, lines, uses, states), (14, 20, 5, 2700));
    let leaves = layout.leaves();
    assert_eq!(leaves.iter().map(|l| l.states).product::<u64>(), 2700);
    assert_eq!(leaves.iter().map(|l| l.width).sum::<u32>(), 14);
}

#[test]
fn one_state() {
    let expected = Model { bits: 0, lines: 1, uses: 1, states: 1, layout: Layout::default() };
    assert_eq!(model(b"000101\n").unwrap(), expected);
    assert_eq!(expected.layout.leaves(), [leaf(0, 0, 0, 1)]);
    assert_eq!(expected.layout.leaves()[0].state(12345), 0);
    assert_eq!((expected.layout.codes(), expected.layout.is_state(1)), (vec![0], false));
}

/// The model is the last line's process: earlier lines that it does not use count as lines only.
#[test]
fn unused_lines() {
    let found = model(b"000140\n010105\n02030101\n").unwrap();
    assert_eq!((found.bits, found.lines, found.uses, found.states), (3, 3, 1, 5));
    assert_eq!(found.layout.leaves(), [leaf(1, 0, 3, 5)]);
}

/// All stored vectors.
fn vectors() -> Vec<Vector> {
    ["tests/vectors.tsv", "models/vectors.tsv"].into_iter().flat_map(common::vectors).collect()
}

/// Numbers and lines of the refusals that stand in the vectors; their other texts are accepted.
#[test]
fn stored_texts() {
    let (mut refused, mut accepted) = (0, 0);
    for Vector { texts, answer, .. } in vectors() {
        let words: Vec<&str> = answer.split(' ').collect();
        let number = |place: usize| words[place].parse::<u64>().unwrap();
        match (words[0], words[1]) {
            ("refused", "7") => continue,
            ("refused", "1" | "2" | "3" | "4" | "5" | "6") => {
                let refusal = model(&texts[number(2) as usize]).unwrap_err();
                let found = (refusal.fault.number(), refusal.side, refusal.line);
                assert_eq!(found, (number(1), Side::Left, number(3)));
                refused += 1;
            }
            _ => {
                assert!(texts.iter().all(|text| model(text).is_ok()));
                accepted += 1;
            }
        }
    }
    assert!(refused > 50 && accepted > 50, "{refused} refused, {accepted} accepted");
}

/// A text with one byte changed is refused as a comparison refuses it on the left, beside an empty text.
#[test]
fn changed_texts() {
    let mut table = Table::new(2).unwrap();
    let mut accepted = 0;
    for (place, Vector { texts: [mut text, _], .. }) in vectors().into_iter().enumerate() {
        for at in (place % 5..text.len()).step_by(5) {
            let before = std::mem::replace(&mut text[at], b"01F\na"[(place + at) % 5]);
            let beside = table.compare(&text, b"", 0).unwrap_err();
            let alone = model(&text);
            assert_eq!(alone.as_ref().err(), Some(&beside).filter(|r| r.side == Side::Left));
            accepted += u64::from(alone.is_ok());
            text[at] = before;
        }
    }
    assert!(accepted > 100, "{accepted}");
}

/// Leaves of 3, 1 and 5 states that never meet, put together so that their order in the code is not that of the lines.
const MIXED: &[u8] = b"000103000201010202\n010101000400\n020105000601010604\n03020200\n04060100\n05020304\n";

#[test]
fn places() {
    let Model { bits, lines, uses, states, layout } = model(MIXED).unwrap();
    assert_eq!((bits, lines, uses, states), (7, 6, 4, 45));
    assert_eq!(layout.leaves(), [leaf(2, 0, 3, 5), leaf(0, 3, 2, 3), leaf(1, 5, 0, 1), leaf(0, 5, 2, 3)]);
}

/// Each leaf use alone moves its own bits, and nothing else moves: so the library's code has the places that were told.
#[test]
fn places_by_look_ups() {
    let found = model(MIXED).unwrap();
    let lines = Lines::decode(MIXED).unwrap();
    let mut table = Table::new(1 << 16).unwrap();
    let compared = table.compare(MIXED, b"000101\n", LIMIT).unwrap();
    let mut steps = 0;
    for now in found.layout.codes() {
        let expected = moved(&found, &lines, now);
        assert_eq!(sorted(compared.left_steps_from(now, &found).unwrap()), expected, "{now}");
        for action in 0..64 {
            for next in 0..1 << found.bits {
                let holds = compared.left_steps(action, now, next).unwrap();
                assert_eq!(holds, expected.contains(&(action, next)), "{now} {action} {next}");
                steps += u64::from(holds);
            }
        }
    }
    assert_eq!(steps, 45 / 5 * 2 + 2 * (45 / 3 * 2) + 45);
}

/// The same leaves in the highest bits that there are, above leaves without steps, as left and as right model.
#[test]
fn places_in_the_highest_bits() {
    let above = b"060140\n070120\n08020606\n09020807\n0A020905\n";
    let text = [MIXED, above].concat();
    let (found, low) = (model(&text).unwrap(), model(MIXED).unwrap());
    assert_eq!(found.bits, u64::from(MAX_BITS));
    let lines = Lines::decode(&text).unwrap();
    let mut tables = [1 << 16; 2].map(|entries| Table::new(entries).unwrap());
    let [one, other] = &mut tables;
    let left = one.compare(&text, b"000101\n", LIMIT).unwrap();
    let right = other.compare(b"000101\n", &text, LIMIT).unwrap();
    for state in low.layout.codes() {
        let now = (state << (found.bits - low.bits)) + 0x1_2345;
        let expected = moved(&found, &lines, now);
        assert_eq!(sorted(left.left_steps_from(now, &found).unwrap()), expected, "{now}");
        assert_eq!(sorted(right.right_steps_from(now, &found).unwrap()), expected, "{now}");
        for (action, next) in expected {
            assert_eq!(left.left_steps(action, now, next), Ok(true));
            assert_eq!(right.right_steps(action, now, next), Ok(true));
        }
    }
}

fn sorted(steps: impl Iterator<Item = (u64, u64)>) -> Vec<(u64, u64)> {
    let mut all: Vec<(u64, u64)> = steps.collect();
    all.sort_unstable();
    all
}

/// The steps of a code by action and next code, ascending, where the leaves never meet.
fn moved(found: &Model, lines: &Lines, now: u64) -> Vec<(u64, u64)> {
    let mut steps = Vec::new();
    for leaf in found.layout.leaves() {
        let Frame::Leaf { triples, .. } = &lines.frames[leaf.line] else { panic!("not a leaf") };
        for triple in triples.iter().filter(|t| u64::from(t.from) == leaf.state(now)) {
            let others = now - (leaf.state(now) << leaf.shift);
            steps.push((u64::from(triple.action), others + (u64::from(triple.to) << leaf.shift)));
        }
    }
    sorted(steps.into_iter())
}
