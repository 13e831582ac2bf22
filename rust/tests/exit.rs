//! The termination event of document 02's point 4: action 62, the only one of channel 31.

mod common;

use common::{answer, lines, steps, LIMIT};
use seipolku::frames::{Lines, EXIT, MOST_CHANNEL};
use seipolku::{model, Fault, Refusal, Side, Table};

/// Action 62, and channel 30 wherever a channel may stand.
#[test]
fn accepted() {
    assert_eq!((EXIT, MOST_CHANNEL), (0x3E, 0x1E));
    let last_channel = [
        "000102003C01003D01",
        "000101/0103001E",
        "000101/0105001E",
        "000101/0104001E01",
        "000101/010400011E",
        "000101/010600001E",
    ];
    for written in ["000102003E01"].iter().chain(&last_channel) {
        assert!(model(&lines(written)).is_ok(), "{written}");
    }
}

/// Action 63, and channel 31 in every list and relabelling; a length that a kind can't have comes before.
#[test]
fn refused() {
    let cases = [
        ("000102003F01", Fault::Range, 0),
        ("000102003E01003F00", Fault::Range, 0),
        ("000101/0103001F", Fault::Range, 1),
        ("000101/0103001E1F", Fault::Range, 1),
        ("000101/0105001F", Fault::Range, 1),
        ("000101/0104001F01", Fault::Range, 1),
        ("000101/010400011F", Fault::Range, 1),
        ("000101/010600001F", Fault::Range, 1),
        ("000101/01060000011F", Fault::Range, 1),
        ("000102003F", Fault::Kind, 0),
    ];
    let mut table = Table::new(2).unwrap();
    for (written, fault, line) in cases {
        let refused = lines(written);
        let refusal = |side| Refusal { fault, side, line };
        assert_eq!(model(&refused), Err(refusal(Side::Left)), "{written}");
        let left = table.compare(&refused, b"000101\n", LIMIT).unwrap_err();
        let right = table.compare(b"000101\n", &refused, LIMIT).unwrap_err();
        assert_eq!([left, right], [refusal(Side::Left), refusal(Side::Right)], "{written}");
    }
}

/// Termination is on no channel that could be named.
#[test]
fn lines_as_values() {
    let written = lines("000103000201013E02/01020000/0203010203/0304020204/040503051E/0506040406");
    let decoded = Lines::decode(&written).unwrap();
    assert_eq!(decoded.channels(), [1, 2, 3, 4, 5, 6, 30]);
    assert_eq!(decoded.encode().into_bytes(), written);
    assert_eq!(Lines::decode(&lines("000102003E01")).unwrap().channels(), []);
    // Texts that the library refuses are decoded all the same.
    assert_eq!(Lines::decode(&lines("000102003F01/0103001F")).unwrap().channels(), []);
}

const LEAF: &str = "000102003E01";

/// Joint takes 62 on both sides together, with any list; compose on either side alone, never both at once and never as an internal step;
/// the others let it pass.
#[test]
fn rules() {
    let exit = u64::from(EXIT);
    let after = |line: &str| steps(&format!("{LEAF}/{line}"));
    assert_eq!(steps(LEAF), [(0, exit, 1)]);
    assert_eq!(after("01060000"), [(0, exit, 3)]);
    assert_eq!(after("010600001E"), [(0, exit, 3)]);
    assert_eq!(after("01020000"), [(0, exit, 1), (0, exit, 2), (1, exit, 3), (2, exit, 3)]);
    for passing in ["010300", "0103001E", "0105001E", "0104000102", "0104001E01"] {
        assert_eq!(after(passing), [(0, exit, 1)], "{passing}");
    }
    assert_eq!(after("010102000201/02060001"), [(0, 2, 2), (1, 2, 3)]);
    assert_eq!(steps("000103000201013E02/0106000001"), [(0, 2, 5), (5, exit, 10)]);
}

/// Every action up to 63 may be looked up; no model has a step by 63.
#[test]
fn looked_up() {
    let text = lines("000102003E01/01060000");
    let mut table = Table::new(4096).unwrap();
    let compared = table.compare(&text, &text, LIMIT).unwrap();
    assert_eq!(compared.left_steps(62, 0, 3), Ok(true));
    assert_eq!(compared.right_steps(62, 0, 1), Ok(false));
    assert_eq!(compared.left_steps(63, 0, 3), Ok(false));
    assert_eq!(compared.left_steps(64, 0, 3).unwrap_err().fault, Fault::LookUp);
}

/// Verdicts, rounds and nodes of pairs with termination, and of a joint without any.
#[test]
fn verdicts() {
    let pairs = [
        (LEAF, "000101", "strong different 1 | weak different 1 | 21 76 119"),
        ("000102003E01/01020000", LEAF, "strong different 2 | weak different 2 | 86 451 956"),
        ("000103000001013E02", LEAF, "strong different 1 | weak equal 3 | 66 388 1019"),
        ("000102000201/01060000", "000103000201010202", "strong equal 3 | weak equal 3 | 125 695 1819"),
        ("000102003E01/01060000/02060100", LEAF, "strong equal 2 | weak equal 2 | 98 518 991"),
    ];
    for (left, right, expected) in pairs {
        let texts = [lines(left), lines(right)];
        assert_eq!(answer([&texts[0], &texts[1]], LIMIT, 4096), expected, "{left} {right}");
    }
}
