//! Models and codes at the limits of document 02's point 1.

mod common;

use common::{shown, LIMIT};
use seipolku::{model, Fault, Model, Refusal, Root, Side, Table, CODES, LAST_LEVEL, MAX_BITS};

const ALL_ONES: u64 = CODES - 1;
/// Output and input on channel 1.
const OUT: u64 = 2;
const IN: u64 = 3;

/// The old limit.
const BEFORE: u32 = 20;

/// So many two-state leaves, which take all their steps together: output to state 1, input back.
fn joined(leaves: u32) -> Vec<u8> {
    let line = |number| format!("{number:02X}06{:02X}0001\n", number - 1);
    ["000102000201010300\n".to_string()]
        .into_iter()
        .chain((1..leaves).map(line))
        .collect::<String>()
        .into_bytes()
}

/// The same with a last line that uses the first leaf alone.
fn unused(leaves: u32) -> Vec<u8> {
    [joined(leaves), format!("{leaves:02X}0300\n").into_bytes()].concat()
}

#[test]
fn numbers() {
    assert_eq!((MAX_BITS, CODES, LAST_LEVEL), (24, 16_777_216, 149));
}

#[test]
fn models_within() {
    for bits in [BEFORE, BEFORE + 1, MAX_BITS] {
        let found = model(&joined(bits)).unwrap();
        let leaves = u64::from(bits);
        assert_eq!((found.bits, found.lines, found.uses, found.states), (leaves, leaves, leaves, 1 << bits));
        assert_eq!(found.layout.leaves().last().map(|l| (l.shift, l.width)), Some((bits - 1, 1)));
        assert_eq!(model(&unused(bits)).unwrap().bits, 1);
    }
}

#[test]
fn one_bit_more() {
    let line = u64::from(MAX_BITS);
    let refusal = |side| Refusal { fault: Fault::Limits, side, line };
    let mut table = Table::new(2).unwrap();
    for text in [joined(MAX_BITS + 1), unused(MAX_BITS + 1)] {
        assert_eq!(model(&text), Err(refusal(Side::Left)));
        let left = table.compare(&text, b"000101\n", LIMIT).unwrap_err();
        let right = table.compare(b"000101\n", &text, LIMIT).unwrap_err();
        assert_eq!([left, right], [refusal(Side::Left), refusal(Side::Right)]);
    }
    assert_eq!(
        refusal(Side::Right).to_string(),
        "right model, line 24: the line's process has more than 24 bits or 64 leaf uses"
    );
}

/// The leaves go together, so that the model is one leaf, whatever their number.
#[test]
fn verdicts_within() {
    let mut table = Table::new(1 << 16).unwrap();
    for bits in [BEFORE, BEFORE + 1, MAX_BITS] {
        let compared = table.compare(&joined(1), &joined(bits), LIMIT).unwrap();
        let ones = (1 << bits) - 1;
        assert_eq!(compared.right_steps(OUT, 0, ones), Ok(true));
        assert_eq!(compared.right_steps(IN, ones, 0), Ok(true));
        assert_eq!(compared.right_steps(OUT, 0, ones >> 1), Ok(false));
        for verdict in [compared.strong, compared.weak] {
            assert_eq!((verdict.equal(), verdict.rounds()), (true, Some(2)));
            let related = [(0, 0), (1, ones), (0, ones), (1, ones >> 1)].map(|(l, r)| verdict.related(l, r));
            assert_eq!(related, [true, true, false, false].map(|holds| Ok(Some(holds))));
        }
    }
}

/// Four leaves of 64 states.
#[test]
fn wide_leaves() {
    let still = b"000140\n01020000\n02020101\n";
    assert_eq!(model(still).unwrap().states, CODES);
    let mut table = Table::new(1 << 14).unwrap();
    let compared = table.compare(b"000101\n", still, LIMIT).unwrap();
    assert_eq!(shown(&compared), "strong equal 1 | weak equal 1 | 114 11437 14329");
    assert_eq!(compared.strong.related(0, ALL_ONES), Ok(Some(true)));
    assert_eq!(compared.weak.related(ALL_ONES, 0), Ok(Some(true)));
}

fn in_each_place(root: Root<'_>, code: u64) -> [Result<bool, Refusal>; 4] {
    [0, 1, 2, 3].map(|place| {
        let mut codes = [0; 4];
        codes[place] = code;
        root.look_up(OUT, codes)
    })
}

/// From nodes, and from the roots 0 and 1, where no level is read.
#[test]
fn codes_in_each_place() {
    let mut table = Table::new(1 << 17).unwrap();
    let mut idle = Table::new(14).unwrap();
    let large = table.compare(&joined(MAX_BITS), &joined(MAX_BITS), LIMIT).unwrap();
    let still = idle.compare(b"000101\n", b"000101\n", LIMIT).unwrap();
    let largest =
        [large.strong, large.weak, still.strong, still.weak].map(|verdict| verdict.largest().unwrap());
    let roots = [[large.left, large.right, still.left, still.right], largest].concat();
    for root in roots {
        for code in [0, 1 << BEFORE, ALL_ONES] {
            assert!(in_each_place(root, code).iter().all(Result::is_ok), "{root:?} {code}");
        }
        for code in [CODES, CODES + 1, u64::MAX] {
            let refused = in_each_place(root, code).map(|r| r.unwrap_err().fault);
            assert_eq!(refused, [Fault::LookUp; 4], "{root:?} {code}");
        }
    }
    assert_eq!(in_each_place(large.left, ALL_ONES), [false, true, false, false].map(Ok));
    assert_eq!(in_each_place(large.right, ALL_ONES), [false, false, false, true].map(Ok));
    assert_eq!(in_each_place(still.left, ALL_ONES), [Ok(false); 4]);
    assert_eq!(in_each_place(still.weak.largest().unwrap(), ALL_ONES), [Ok(true); 4]);
}

#[test]
fn steps_from_a_state() {
    let mut table = Table::new(1 << 17).unwrap();
    let text = joined(MAX_BITS);
    let found = model(&text).unwrap();
    let compared = table.compare(&text, &text, LIMIT).unwrap();
    for (now, steps) in [(0, vec![(OUT, ALL_ONES)]), (ALL_ONES, vec![(IN, 0)]), (1 << BEFORE, Vec::new())] {
        assert_eq!(compared.left_steps_from(now, &found).unwrap().collect::<Vec<_>>(), steps);
        assert_eq!(compared.right_steps_from(now, &found).unwrap().collect::<Vec<_>>(), steps);
    }
    let of_bits = |bits| Model { bits, ..found.clone() };
    let most = found.bits;
    for (now, bits) in [(CODES, most), (u64::MAX, most), (0, most + 1), (0, u64::MAX), (1, 0), (2, 1), (8, 3)]
    {
        let both =
            [compared.left_steps_from(now, &of_bits(bits)), compared.right_steps_from(now, &of_bits(bits))];
        assert_eq!(both.map(|steps| steps.err().map(|r| r.fault)), [Some(Fault::LookUp); 2], "{now} {bits}");
    }
}

/// A model of 4 bits, where 3 is no state of either leaf: all codes of these bits are taken, and no others. Code 12 is no state's, and has a
/// step nevertheless.
#[test]
fn codes_of_a_small_model() {
    let text = b"000103000201\n01020000\n";
    let found = model(text).unwrap();
    let mut table = Table::new(1 << 16).unwrap();
    let compared = table.compare(text, text, LIMIT).unwrap();
    for (now, steps) in
        [(0, vec![(OUT, 1), (OUT, 4)]), (4, vec![(OUT, 5)]), (5, vec![]), (12, vec![(OUT, 13)])]
    {
        for shown in [compared.left_steps_from(now, &found), compared.right_steps_from(now, &found)] {
            let mut all: Vec<(u64, u64)> = shown.unwrap().collect();
            all.sort_unstable();
            assert_eq!(all, steps, "{now}");
        }
    }
    for now in [16, 17, 28, ALL_ONES, CODES] {
        for shown in [compared.left_steps_from(now, &found), compared.right_steps_from(now, &found)] {
            assert_eq!(shown.unwrap_err().fault, Fault::LookUp, "{now}");
        }
    }
}

/// 2^24 steps from one state: some are had at once, and in a smaller model all of them once.
#[test]
fn many_steps_from_a_state() {
    let leaf: String = (0..64).map(|to| format!("0002{to:02X}")).collect();
    let text = |leaves| {
        let line = |number| format!("{number:02X}06{:02X}0001\n", number - 1);
        format!("000140{leaf}\n{}", (1..leaves).map(line).collect::<String>()).into_bytes()
    };
    let mut table = Table::new(1 << 16).unwrap();
    let large = table.compare(&text(4), b"000101\n", LIMIT).unwrap();
    assert_eq!(large.left_steps_from(0, &model(&text(4)).unwrap()).unwrap().take(1000).count(), 1000);
    let small = table.compare(&text(2), b"000101\n", LIMIT).unwrap();
    let mut steps: Vec<(u64, u64)> = small.left_steps_from(0, &model(&text(2)).unwrap()).unwrap().collect();
    steps.sort_unstable();
    assert!(steps.into_iter().eq((0..1 << 12).map(|next| (OUT, next))));
}
