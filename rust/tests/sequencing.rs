//! Enabling and disabling of document 02's point 5: kinds 07 and 08.

mod common;

use common::{answer, lines, steps, LIMIT};
use seipolku::frames::{Frame, Lines, EXIT};
use seipolku::{model, Fault, LeafUse, Refusal, Side, Table, MAX_BITS, MAX_TABLE};

const OUT_1: u64 = 2;
const OUT_2: u64 = 4;

/// A leaf that steps and exits, one that steps, and both under an operator.
const FIRST: &str = "000103000201013E02";
const SECOND: &str = "010102000401";

fn both(last: &str) -> String {
    format!("{FIRST}/{SECOND}/{last}")
}

#[test]
fn lines_as_values() {
    let written = lines(&both("02070001/03080200"));
    let decoded = Lines::decode(&written).unwrap();
    assert_eq!(decoded.frames[2], Frame::Enable { first: 0, second: 1 });
    assert_eq!(decoded.frames[3], Frame::Disable { first: 2, second: 0 });
    assert_eq!(decoded.encode().into_bytes(), written);
    assert_eq!(decoded.channels(), [1, 2]);
    for length in ["020700", "0207000001", "0208", "0208000100"] {
        assert_eq!(Lines::decode(&lines(&both(length))), None, "{length}");
    }
}

/// Lines that no text has: an operand that is no earlier line, and more bits or uses than can be counted.
#[test]
fn no_layout() {
    let layout = |written: &str| Lines::decode(&lines(written)).unwrap().layout();
    for written in ["00070000", "000101/01080001", "000101/01070200", "000101/01080001/02030100"] {
        assert_eq!(layout(written), None, "{written}");
    }
    let doubled =
        |kind: &str| (1..64).map(|n| format!("/{n:02X}{kind}{0:02X}{0:02X}", n - 1)).collect::<String>();
    for kind in ["02", "06", "07", "08"] {
        assert_eq!(layout(&format!("000101{}", doubled(kind))), None, "{kind}");
        assert_eq!(layout(&format!("000140{}", doubled(kind))), None, "{kind}");
    }
    assert_eq!(Lines::default().layout(), None);
}

/// Exactly two operands, both earlier lines.
#[test]
fn refused() {
    for kind in ["07", "08"] {
        let cases = [
            ("", Fault::Kind),
            ("00", Fault::Kind),
            ("000001", Fault::Kind),
            ("0001", Fault::Range),
            ("0100", Fault::Range),
            ("00FF", Fault::Range),
        ];
        let mut table = Table::new(2).unwrap();
        for (operands, fault) in cases {
            let text = lines(&format!("000101/01{kind}{operands}"));
            let refusal = |side| Refusal { fault, side, line: 1 };
            assert_eq!(model(&text), Err(refusal(Side::Left)), "{kind} {operands}");
            let right = table.compare(b"000101\n", &text, LIMIT).unwrap_err();
            assert_eq!(right, refusal(Side::Right), "{kind} {operands}");
        }
    }
    assert_eq!(model(&lines("000101/01090000")).unwrap_err().fault, Fault::Kind);
}

/// The added bits count for refusal 6, and so do the uses of both operands.
#[test]
fn limits() {
    // Lines 2, 3 and 4 have 12, 11 and 10 bits.
    let leaves = "000140/010120/02020000/03020001/04020101";
    let found = |last: &str| model(&lines(&format!("{leaves}/05{last}"))).map(|m| (m.bits, m.uses, m.states));
    assert_eq!(found("070203"), Ok((u64::from(MAX_BITS), 4, 4096 + 2048)));
    assert_eq!(found("080303"), Ok((u64::from(MAX_BITS), 4, 3 * 2048)));
    assert_eq!(found("080204"), Ok((u64::from(MAX_BITS), 4, 2 * 4096 + 1024)));
    let refusal = Err(Refusal { fault: Fault::Limits, side: Side::Left, line: 5 });
    for last in ["070202", "080203", "080302"] {
        assert_eq!(found(last), refusal, "{last}");
    }
    let uses: String = (1..6).map(|n| format!("/{n:02X}02{0:02X}{0:02X}", n - 1)).collect();
    for kind in ["07", "08"] {
        let last = format!("000101{uses}/06{kind}0505");
        assert_eq!(model(&lines(&last)).unwrap().uses, 64);
        let more = model(&lines(&format!("000101{uses}/06020500/07{kind}0506"))).unwrap_err();
        assert_eq!((more.fault, more.line), (Fault::Limits, 7));
    }
}

#[test]
fn layouts() {
    let leaf = |line, shift, width, states| LeafUse { line, shift, width, states };
    let enabling = model(&lines(&both("02070001"))).unwrap();
    assert_eq!((enabling.bits, enabling.uses, enabling.states), (4, 2, 5));
    assert_eq!(enabling.layout.leaves(), [leaf(0, 1, 2, 3), leaf(1, 3, 1, 2)]);
    assert_eq!((enabling.layout.codes(), enabling.layout.added()), (vec![0, 1, 2, 4, 9], 1));
    assert_eq!(enabling.layout.alive(2), Some(vec![true, false]));
    assert_eq!(enabling.layout.alive(9), Some(vec![false, true]));
    for code in [3, 6, 8, 16, u64::MAX] {
        assert!(!enabling.layout.is_state(code), "{code}");
    }
    let disabling = model(&lines(&both("02080001"))).unwrap();
    assert_eq!((disabling.bits, disabling.uses, disabling.states), (5, 2, 8));
    assert_eq!(disabling.layout.leaves(), [leaf(0, 2, 2, 3), leaf(1, 4, 1, 2)]);
    assert_eq!((disabling.layout.codes(), disabling.layout.added()), (vec![0, 1, 2, 4, 6, 8, 10, 17], 2));
    assert_eq!(disabling.layout.alive(4), Some(vec![true, true]));
    assert_eq!(disabling.layout.alive(1), Some(vec![false, true]));
    assert_eq!(disabling.layout.alive(10), Some(vec![true, false]));
    for code in [3, 5, 12, 16, 18, 32] {
        assert!(!disabling.layout.is_state(code), "{code}");
    }
}

/// The exit of the first becomes an internal step to the second's start; the second's exit stays.
#[test]
fn enabling() {
    assert_eq!(steps(&both("02070001")), [(0, OUT_1, 2), (1, OUT_2, 9), (2, 0, 1)]);
    assert_eq!(steps(&both("02070100")), [(0, OUT_2, 2), (1, OUT_1, 5), (5, 62, 9)]);
    assert_eq!(steps("000102003E01/01070000"), [(0, 0, 1), (1, u64::from(EXIT), 5)]);
}

/// Any step of the second drops the first, its internal step and its exit too; the exit of the first drops the second and stays visible.
#[test]
fn disabling() {
    let expected = [
        (0, OUT_1, 4),
        (0, OUT_2, 17),
        (1, OUT_2, 17),
        (2, OUT_1, 6),
        (4, OUT_2, 17),
        (4, 62, 10),
        (6, 62, 10),
        (8, OUT_2, 17),
    ];
    assert_eq!(steps(&both("02080001")), expected);
    for action in [0, 62] {
        let second = format!("000101/01010200{action:02X}01/02080001");
        assert_eq!(steps(&second), [(0, action, 5), (1, action, 5)], "{second}");
    }
}

/// A code that is no state's may have steps (document 02's rules speak of states alone).
#[test]
fn codes_that_are_no_states() {
    let text = lines("000103000201/010102000401/02080001");
    let found = model(&text).unwrap();
    let mut table = Table::new(1 << 16).unwrap();
    let compared = table.compare(&text, &text, LIMIT).unwrap();
    assert!(!found.layout.is_state(12));
    assert_eq!(compared.left_steps(OUT_2, 12, 17), Ok(true));
    assert_eq!(compared.strong.related(12, 12), Ok(Some(false)));
}

/// Two of the operators over leaves of one, two and three states, one within the other on either side, and one beside an unused line.
fn nested() -> Vec<String> {
    let mut all = Vec::new();
    for (one, two) in (0..16).map(|k| (k / 4, k % 4)) {
        let [inner, outer] = [one, two].map(|kind| ["02", "06", "07", "08"][kind]);
        let leaves = "000101003E00/010102000201013E00/020103000001000402023E01";
        for (i, j) in (0..9).map(|k| (k / 3, k % 3)) {
            for last in [format!("03{:02X}", (i + j) % 3), format!("{:02X}03", (i + j) % 3)] {
                all.push(format!("{leaves}/03{inner}{i:02X}{j:02X}/04{outer}{last}"));
            }
        }
    }
    all
}

/// The largest bisimulation of a model with itself relates every state to itself, and no other code: so the library's states are those of
/// the layout. Every step leads from state to state.
#[test]
fn states_by_look_ups() {
    let mut table = Table::new(MAX_TABLE).unwrap();
    for written in nested() {
        let text = lines(&written);
        let found = model(&text).unwrap();
        let compared = table.compare(&text, &text, LIMIT).unwrap();
        let (codes, layout) = (0..1 << found.bits, &found.layout);
        let held: Vec<u64> =
            codes.filter(|code| compared.strong.related(*code, *code) == Ok(Some(true))).collect();
        assert_eq!((held.len() as u64, &held), (found.states, &layout.codes()), "{written}");
        for now in held {
            let mut walked = compared.left_steps_from(now, &found).unwrap();
            assert!(walked.all(|(_, next)| layout.is_state(next)), "{written} {now}");
            let alive = layout.alive(now).unwrap();
            let waiting = layout.leaves().into_iter().zip(alive).filter(|(_, alive)| !alive);
            assert!(waiting.into_iter().all(|(leaf, _)| leaf.state(now) == 0), "{written} {now}");
        }
    }
}

/// Laws and their failures, by verdicts and rounds.
#[test]
fn verdicts() {
    let third = "000103000201013E02/010103000401013E02/020102000601";
    let stop = "000103000201010200/010102000401";
    let pairs = [
        // Enabling groups either way.
        (format!("{third}/03070001/04070302"), format!("{third}/03070102/04070003"), "equal", "equal"),
        // An exit before the second is an internal step.
        ("000102003E01/010102000201/02070001".to_string(), "000102000201".to_string(), "different", "equal"),
        // Stopping leaves nothing of the first.
        (format!("{stop}/02080001"), "000103000200000401".to_string(), "equal", "equal"),
        // An enabling in its place waits for an exit that never comes.
        (format!("{stop}/02070001"), format!("{stop}/02080001"), "different", "different"),
    ];
    for (left, right, strong, weak) in pairs {
        let texts = [lines(&left), lines(&right)];
        let found = answer([&texts[0], &texts[1]], LIMIT, 1 << 16);
        let (one, other) = found.split_once(" | ").unwrap();
        assert!(one.starts_with(&format!("strong {strong} ")), "{left} {right}: {found}");
        assert!(other.starts_with(&format!("weak {weak} ")), "{left} {right}: {found}");
    }
}
