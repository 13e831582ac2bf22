//! Rows P1 to P10 of document 01 and single points of its text and of document 02's points 4 to 6.

use oracle::answer::MAX_TABLE;
use oracle::bisim::Mode;
use oracle::model::{Model, TAU};
use oracle::reader::{read, Refusal};
use oracle::steps::Step;
use oracle::{compare, largest, steps, Answer};

const LIMIT: u64 = 1_000_000;

/// `/` ends a line, and so does the end of a row.
fn text(row: &str) -> Vec<u8> {
    format!("{row}/").replace('/', "\n").into_bytes()
}

fn model(row: &str) -> Model {
    read(&text(row)).expect("the row is accepted")
}

fn answer_at((left, right): (&str, &str), limit: u64, length: usize) -> String {
    compare(&text(left), &text(right), limit, (length, length, length)).to_string()
}

fn answer(row: (&str, &str)) -> String {
    answer_at(row, LIMIT, 4096)
}

fn derived(row: &str) -> Vec<(u32, u8, u32)> {
    let triple = |s: Step| (s.from, s.action, s.to);
    steps(&model(row)).expect("small").into_iter().map(triple).collect()
}

const P1: (&str, &str) = ("000101", "000101");
const P2: (&str, &str) = ("000102000201", "000103000001010202");
const P4: (&str, &str) = ("000103000201010402010602", "000104000201000202010403020603");
const P6: (&str, &str) = ("000104000201000202020403", "000103000201010402");
const P7: (&str, &str) = ("000102000201/010102000301/02020001/03030201", "000102000001");
const P8: (&str, &str) = ("000102000201/01050001", "000102000001");
const P9: (&str, &str) = ("000102000201/0106000001", "000102000201");
const P10: (&str, &str) = ("000102000201/0104000102", "000102000401");

/// Refusal 8 where there is room for so many nodes, of a list that needs these by its stages.
fn full(nodes: [usize; 3], room: usize) -> String {
    let [relations, answers, whole] = nodes.map(|number| number.min(room));
    format!("refused 8 2 0 | {relations} {answers} {whole}")
}

/// The answer of a row on the shortest table that its list fits. With room for each of its three numbers of nodes, one less and
/// one more, there is this answer where all of the list fits, else 8.
fn fits(row: (&str, &str), limit: u64, nodes: [usize; 3]) -> String {
    let answer = answer_at(row, limit, nodes[2] + 2);
    for room in nodes.into_iter().flat_map(|number| number.saturating_sub(1)..number + 2) {
        let expected = if room < nodes[2] { full(nodes, room) } else { answer.clone() };
        assert_eq!(answer_at(row, limit, room + 2), expected);
    }
    assert_eq!(answer, answer_at(row, limit, 1 << 20));
    answer
}

const NO_VERDICTS: &str = "strong refused 9 2 0 | weak refused 9 2 0";

#[test]
fn p1_one_state() {
    assert_eq!(answer(P1), "strong equal 1 | weak equal 1 | 0 6 12");
    assert_eq!(fits(P1, LIMIT, [0, 6, 12]), answer(P1));
    assert_eq!(answer_at(P1, LIMIT, 13), "refused 8 2 0 | 0 6 11");
    assert_eq!(answer_at(P1, LIMIT, 2), "refused 8 2 0 | 0 0 0");
    assert_eq!(answer_at(P1, LIMIT, 1), "refused 7 2 0");
}

#[test]
fn p2_and_p3_inner_step_first() {
    assert_eq!(fits(P2, LIMIT, [62, 384, 956]), "strong different 1 | weak equal 3 | 62 384 956");
    let pairs = largest(&model(P2.0), &model(P2.1), Mode::Weak);
    assert_eq!(pairs, Some(vec![(0, 0), (0, 1), (1, 2)]));
}

#[test]
fn p4_and_p5_choice_after_or_before() {
    let both = "strong different 2 | weak different 2 | 133 783 1633";
    assert_eq!(fits(P4, LIMIT, [133, 783, 1633]), both);
    assert_eq!(fits(P4, 2, [133, 783, 1633]), both);
    assert!(answer_at(P4, 1, 4096).starts_with(&format!("{NO_VERDICTS} | 133 783 ")));
}

#[test]
fn p6_challenges_of_both_sides() {
    let answer = fits(P6, LIMIT, [106, 686, 1501]);
    assert_eq!(answer, "strong different 2 | weak different 2 | 106 686 1501");
}

#[test]
fn p7_to_p10_operators() {
    assert_eq!(fits(P7, LIMIT, [101, 351, 574]), "strong equal 2 | weak equal 1 | 101 351 574");
    assert_eq!(fits(P8, LIMIT, [60, 168, 300]), "strong equal 2 | weak equal 1 | 60 168 300");
    assert_eq!(fits(P9, LIMIT, [74, 311, 649]), "strong equal 2 | weak equal 2 | 74 311 649");
    assert_eq!(fits(P10, LIMIT, [48, 150, 373]), "strong equal 2 | weak equal 2 | 48 150 373");
}

#[test]
fn limit_0_gives_no_verdict() {
    // The weak answers are in the list all the same; B₀ adds nothing to P1's, and one node to P2's.
    assert_eq!(fits(P1, 0, [0, 6, 6]), format!("{NO_VERDICTS} | 0 6 6"));
    assert_eq!(fits(P2, 0, [62, 384, 385]), format!("{NO_VERDICTS} | 62 384 385"));
}

#[test]
fn the_limit_changes_the_third_number_alone() {
    assert_eq!(fits(P2, 1, [62, 384, 670]), "strong different 1 | weak refused 9 2 0 | 62 384 670");
    for (row, stages) in [(P4, "133 783"), (P6, "106 686"), (P7, "101 351"), (P9, "74 311")] {
        for limit in 0..4 {
            let answer = answer_at(row, limit, 4096);
            assert!(answer.contains(&format!(" | {stages} ")), "{limit}: {answer}");
        }
    }
}

#[test]
fn answers_are_read_back() {
    let read = |words: &str| words.parse::<Answer>().map(|answer| answer.to_string());
    for words in [
        "strong equal 1 | weak equal 1 | 0 6 12",
        "strong different 1 | weak refused 9 2 0 | 62 384 670",
        "refused 8 2 0 | 61 61 61",
        "refused 5 1 3",
    ] {
        assert_eq!(read(words).as_deref(), Ok(words));
    }
    for words in [
        "strong equal 1 | weak equal 1 | 12",
        "strong equal 1 | weak equal 1 | 0 6 12 0",
        "strong equal 1 | weak equal 1",
        "refused 8 2 0",
        "refused 8 2 0 | 61",
        "refused 5 1 3 | 0 0 0",
        "refused 9 2 0",
    ] {
        assert_eq!(read(words), Err(()), "{words}");
    }
}

#[test]
fn one_verdict_may_fall_alone() {
    let by = |row, limit| answer_at(row, limit, 4096);
    assert!(by(P2, 1).starts_with("strong different 1 | weak refused 9 2 0 | "));
    assert!(by(P2, 2).starts_with("strong different 1 | weak refused 9 2 0 | "));
    assert!(by(P7, 1).starts_with("strong refused 9 2 0 | weak equal 1 | "));
}

#[test]
fn refusal_7_comes_first() {
    let seven = Answer::Refused { number: 7, side: 2, line: 0 };
    for lens in
        [(5, 4, 4), (4, 5, 4), (4, 4, 5), (0, 0, 0), (1, 1, 1), (MAX_TABLE + 1, MAX_TABLE + 1, MAX_TABLE + 1)]
    {
        assert_eq!(compare(b"", b"", 0, lens), seven, "{lens:?}");
    }
}

#[test]
fn left_text_comes_before_right_text() {
    let lens = (4, 4, 4);
    assert_eq!(compare(b"", b"0", 0, lens).to_string(), "refused 1 0 0");
    assert_eq!(compare(b"000101\n", b"0", 0, lens).to_string(), "refused 1 1 0");
}

#[test]
fn each_refusal_of_a_text() {
    let refused = |text: &[u8]| read(text).map(|_| ()).map_err(|Refusal { number, line }| (number, line));
    assert_eq!(refused(b""), Err((1, 0)));
    assert_eq!(refused(b"000101"), Err((1, 0)));
    assert_eq!(refused(b"00010a\n"), Err((1, 0)));
    assert_eq!(refused(b"\n"), Err((2, 0)));
    assert_eq!(refused(b"000101\n\n"), Err((2, 1)));
    assert_eq!(refused(b"010101\n"), Err((3, 0)));
    assert_eq!(refused(b"0007\n"), Err((4, 0)));
    assert_eq!(refused(b"00010200\n"), Err((4, 0)));
    assert_eq!(refused(b"000102000101\n"), Err((5, 0)));
    assert_eq!(refused(b"000100\n"), Err((5, 0)));
    assert_eq!(refused(b"000140\n01020000\n02020101\n030102\n04020203\n"), Err((6, 4)));
    assert_eq!(refused(b"000101\n"), Ok(()));
}

#[test]
fn a_line_has_at_most_24_bits_and_64_uses() {
    // 24 bits in line 2; 25 bits above it, also where a small last line follows; then 64 and 65 uses.
    let widest = "000140/01020000/02020101";
    let refused = |row: &str| read(&text(row)).map(|model| model.last().bits).map_err(|r| (r.number, r.line));
    assert_eq!(refused(widest), Ok(24));
    assert_eq!(refused(&format!("{widest}/030102")), Ok(1));
    assert_eq!(refused(&format!("{widest}/030101/04020203")), Ok(24));
    assert_eq!(refused(&format!("{widest}/030102/04020203")), Err((6, 4)));
    assert_eq!(refused(&format!("{widest}/030102/04060302/050101")), Err((6, 4)));
    let doubled = "000101/01020000/02020101/03020202/04020303/05020404/06020505";
    assert_eq!(refused(doubled), Ok(0));
    assert_eq!(refused(&format!("{doubled}/07020600")), Err((6, 7)));
}

#[test]
fn line_64_is_refused() {
    let lines = |count: u8| (0..count).map(|n| format!("{n:02X}0101\n")).collect::<String>();
    assert!(read(lines(64).as_bytes()).is_ok());
    assert_eq!(read(lines(65).as_bytes()).unwrap_err(), Refusal { number: 3, line: 64 });
    let bad = lines(64) + "\n";
    assert_eq!(read(bad.as_bytes()).unwrap_err(), Refusal { number: 2, line: 64 });
}

#[test]
fn two_uses_are_two_instances() {
    let expected = vec![(0, 2, 1), (0, 2, 2), (1, 2, 3), (2, 2, 3)];
    assert_eq!(derived("000102000201/01020000"), expected);
}

#[test]
fn tau_does_not_meet_tau() {
    let expected = vec![(0, 0, 1), (0, 0, 2), (1, 0, 3), (2, 0, 3)];
    assert_eq!(derived("000102000001/01020000"), expected);
}

#[test]
fn unused_codes_are_no_states() {
    let expected = vec![(0, 2, 1), (0, 2, 4), (1, 2, 5), (2, 2, 6), (4, 2, 5), (8, 2, 9)];
    assert_eq!(derived("000103000201/01020000"), expected);
}

#[test]
fn joint_takes_the_same_action() {
    assert_eq!(derived("000102000201/010102000301/0206000101"), vec![]);
    assert_eq!(derived("000102000201/0106000001"), vec![(0, 2, 3)]);
}

#[test]
fn relabel_keeps_direction_and_steps_on_the_new_channel() {
    assert_eq!(derived("000102000201000301000401/0104000102"), vec![(0, 4, 1), (0, 5, 1)]);
}

#[test]
fn composition_does_not_distribute_over_choice() {
    // a | (b + c) against (a | b) + (a | c).
    let left = "000102000201/010103000401000602/02020001";
    let right = "000108000201000402000203000604010402030604020205040205";
    assert!(answer_at((left, right), LIMIT, 65536).starts_with("strong different 2 | weak different 2 | "));
}

#[test]
fn large_models_are_not_enumerated() {
    let row = "000140/01020000/02020100";
    assert_eq!(steps(&model(row)), None);
    assert!(answer_at((row, row), LIMIT, MAX_TABLE).starts_with("strong equal 1 | weak equal 1 | "));
}

/// Exit and then nothing.
const EXITS: &str = "000102003E01";

#[test]
fn exit_of_a_joint_takes_both_sides() {
    assert_eq!(derived(&format!("{EXITS}/010102003E01/02060001")), vec![(0, 62, 3)]);
    assert_eq!(derived("000103000201013E02/0106000001"), vec![(0, 2, 5), (5, 62, 10)]);
    // One side alone, whatever the list; beside it others may step, and τ too.
    assert_eq!(derived(&format!("{EXITS}/010101/02060001")), vec![]);
    assert_eq!(derived(&format!("{EXITS}/010102000201/0206000101")), vec![]);
    assert_eq!(derived(&format!("{EXITS}/010102000201/02060001")), vec![(0, 2, 2), (1, 2, 3)]);
    assert_eq!(derived(&format!("{EXITS}/010102000001/02060100")), vec![(0, 0, 1), (2, 0, 3)]);
}

#[test]
fn exits_of_a_composition_are_steps_of_their_own() {
    let separate = vec![(0, 62, 1), (0, 62, 2), (1, 62, 3), (2, 62, 3)];
    assert_eq!(derived(&format!("{EXITS}/01020000")), separate);
    // Not with any output or input, of the last channel either.
    let beside = |action: u8| derived(&format!("{EXITS}/01010200{action:02X}01/02020001"));
    for action in (2..=61).chain([TAU]) {
        let expected = vec![(0, action, 2), (0, 62, 1), (1, action, 3), (2, 62, 3)];
        assert_eq!(beside(action), expected);
    }
}

#[test]
fn exit_passes_what_names_channels() {
    let all: String = (1..=30).map(|channel| format!("{channel:02X}")).collect();
    let lists = [format!("010300{all}"), format!("010500{all}")];
    let relabellings = ["0104000102", "0104001E1E", "010400011E"].map(String::from);
    for line in lists.iter().chain(&relabellings) {
        assert_eq!(derived(&format!("{EXITS}/{line}")), vec![(0, 62, 1)], "{line}");
    }
    assert_eq!(derived(&format!("{EXITS}/01060000{all}")), vec![(0, 62, 3)]);
}

#[test]
fn exits_of_nested_operators() {
    // A composition within a joint: the third exits with either of the two.
    let in_joint = derived(&format!("{EXITS}/01020000/02060100"));
    assert_eq!(in_joint, vec![(0, 62, 5), (0, 62, 6), (1, 62, 7), (2, 62, 7)]);
    // A joint within a composition: the two together, the third alone.
    let in_compose = derived(&format!("{EXITS}/01060000/02020100"));
    assert_eq!(in_compose, vec![(0, 62, 3), (0, 62, 4), (1, 62, 5), (2, 62, 6), (3, 62, 7), (4, 62, 7)]);
    // Three by joints, below a hiding, a relabelling and a restriction.
    let below = "03050201/0404030203/05030403";
    assert_eq!(derived(&format!("{EXITS}/01060000/02060100/{below}")), vec![(0, 62, 7)]);
}

#[test]
fn exit_is_visible() {
    let later = "000103000001013E02";
    assert_eq!(answer((later, EXITS)), "strong different 1 | weak equal 3 | 66 388 1019");
    assert_eq!(answer((EXITS, "000101")), "strong different 1 | weak different 1 | 21 76 119");
    // Neither τ nor an action of a channel stands for it.
    let others = (2..=61).chain([TAU]);
    for other in others.map(|action| format!("00010200{action:02X}01")) {
        assert!(answer((EXITS, &other)).starts_with("strong different 1 | weak different 1 | "), "{other}");
    }
}

#[test]
fn a_joint_may_end_where_a_composition_goes_on() {
    let joint = format!("{EXITS}/01060000");
    let compose = format!("{EXITS}/01020000");
    let interleaved = "000104003E01003E02013E03023E03";
    let at = |left: &str, right: &str| answer_at((left, right), LIMIT, MAX_TABLE);
    assert!(at(&joint, EXITS).starts_with("strong equal 2 | weak equal 2 | "));
    assert!(at(&compose, interleaved).starts_with("strong equal 3 | weak equal 3 | "));
    assert!(at(&joint, &compose).starts_with("strong different 2 | weak different 2 | "));
    let alone = format!("{EXITS}/010101/02060001");
    assert!(at(&alone, "000101").starts_with("strong equal 1 | weak equal 1 | "));
}

/// The refusal of a row, as number and line.
fn refusal(row: &str) -> Option<(u8, usize)> {
    read(&text(row)).err().map(|Refusal { number, line }| (number, line))
}

#[test]
fn exit_has_no_input_in_a_leaf() {
    for row in ["000102003E01", "000102003E01003E01003E00", "000140003E3F", "000102003C01003D01"] {
        assert_eq!(refusal(row), None, "{row}");
    }
    for row in ["000102003F01", "000102003F01000201", "000102000201003F01000201", "000102003E01003F00"] {
        assert_eq!(refusal(row), Some((5, 0)), "{row}");
        assert_eq!(refusal(&format!("{EXITS}/01{}", &row[2..])), Some((5, 1)), "{row}");
    }
}

#[test]
fn no_list_and_no_relabelling_names_exit() {
    let head = "000102003E01000201/01020000";
    let places = [
        "03011F",
        "03011F01",
        "030101021F",
        "03011E1F01",
        "05011F",
        "05011F1E",
        "0501011F02",
        "050101021F",
        "0600011F",
        "0600011F01",
        "0600011E1F02",
        "060001011F",
        "04011F01",
        "0401011F",
        "04011F1F",
    ];
    for place in places {
        assert_eq!(refusal(&format!("{head}/02{place}")), Some((5, 2)), "{place}");
        // The last channel that a list names stands in the same place.
        assert_eq!(refusal(&format!("{head}/02{}", place.replace("1F", "1E"))), None, "{place}");
    }
}

#[test]
fn refusals_before_and_after_that_of_exit() {
    // A length that does not fit the kind comes first; bits and uses come after.
    assert_eq!(refusal("000102003F0100"), Some((4, 0)));
    assert_eq!(refusal(&format!("{EXITS}/0104001F")), Some((4, 1)));
    assert_eq!(refusal(&format!("{EXITS}/0104001F0101")), Some((4, 1)));
    let widest = "000140/01020000/02020101/030102003E01";
    assert_eq!(refusal(&format!("{widest}/0406020301")), Some((6, 4)));
    assert_eq!(refusal(&format!("{widest}/040602031F")), Some((5, 4)));
    assert_eq!(refusal("000102003F01/010"), Some((5, 0)));
}

/// Output 1, then exit; and output 2.
const ENDS: &str = "000103000201013E02";
const OTHER: &str = "0102000401";

#[test]
fn enabling_waits_for_exit_and_makes_it_silent() {
    // First states 0, 2, 4 and second states 1, 9: one added bit, two bits of the first, one of the second.
    assert_eq!(derived(&format!("{ENDS}/01{OTHER}/02070001")), vec![(0, 2, 2), (1, 4, 9), (2, 0, 1)]);
    // What follows the first's exit is gone, wherever that leads.
    assert_eq!(
        derived(&format!("000103003E01010602/01{OTHER}/02070001")),
        vec![(0, 0, 1), (1, 4, 9), (2, 6, 4)]
    );
    assert_eq!(derived(&format!("000103003E01003E02/01{OTHER}/02070001")), vec![(0, 0, 1), (1, 4, 9)]);
    // Exit of the second stays.
    assert_eq!(derived(&format!("{EXITS}/01070000")), vec![(0, 0, 1), (1, 62, 5)]);
}

#[test]
fn disabling_takes_steps_of_either() {
    // Both alive 0, 4, 8; only the second 1, 17; only the first 2, 6, 10.
    let all =
        vec![(0, 2, 4), (0, 4, 17), (1, 4, 17), (2, 2, 6), (4, 4, 17), (4, 62, 10), (6, 62, 10), (8, 4, 17)];
    assert_eq!(derived(&format!("{ENDS}/01{OTHER}/02080001")), all);
    // The second's exit drops the first and stays visible; its τ drops it too.
    let by = |action: u8| derived(&format!("000101000200/01010200{action:02X}01/02080001"));
    for action in [TAU, 62] {
        let mut expected = vec![(0, 2, 0), (0, action, 5), (1, action, 5), (2, 2, 2)];
        expected.sort_unstable();
        assert_eq!(by(action), expected);
    }
}

#[test]
fn states_of_enablings_and_disablings_add_up() {
    let size = |row: &str| {
        let model = model(row);
        (model.last().bits, model.last().uses, model.last().states)
    };
    // 3 and 5 states: 2 and 3 bits.
    let leaves = "000103/010105";
    assert_eq!(size(&format!("{leaves}/02070001")), (6, 2, 8));
    assert_eq!(size(&format!("{leaves}/02080001")), (7, 2, 11));
    assert_eq!(size(&format!("{leaves}/02080100")), (7, 2, 13));
    assert_eq!(size(&format!("{leaves}/02070000/03080201/04020303")), (20, 6, 17 * 17));
    assert_eq!(size("000101/01070000/02080101"), (4, 4, 6));
    let states = |row: &str| oracle::steps::derive(&model(row)).expect("small").states;
    assert_eq!(states(&format!("{leaves}/02070001")), [0, 1, 2, 4, 9, 17, 25, 33]);
    assert_eq!(states(&format!("{leaves}/02080100")), [0, 1, 2, 4, 6, 8, 10, 12, 14, 16, 18, 33, 65]);
}

#[test]
fn refusals_of_enablings_and_disablings() {
    for kind in ["07", "08"] {
        for length in [0, 1, 3, 4, 253] {
            let body = "00".repeat(length);
            assert_eq!(refusal(&format!("{EXITS}/01{kind}{body}")), Some((4, 1)), "{kind} {length}");
        }
        for operands in ["0100", "0001", "0101", "4000", "00FF"] {
            assert_eq!(refusal(&format!("{EXITS}/01{kind}{operands}")), Some((5, 1)), "{kind} {operands}");
        }
        assert_eq!(refusal(&format!("00{kind}0000")), Some((5, 0)));
        assert_eq!(refusal(&format!("{EXITS}/01{kind}0000")), None);
        let doubled = "000101/01020000/02020101/03020202/04020303/05020404";
        assert_eq!(refusal(&format!("{doubled}/06{kind}0505")), None);
        assert_eq!(refusal(&format!("{doubled}/06020505/07{kind}0600")), Some((6, 7)));
        assert_eq!(refusal(&format!("{doubled}/06020505/07{kind}0006")), Some((6, 7)));
    }
    assert_eq!(refusal(&format!("{EXITS}/01090000")), Some((4, 1)));
}

#[test]
fn added_bits_count() {
    // 18 bits in line 2.
    let head = "000140/01020000/02020100";
    assert_eq!(refusal(&format!("{head}/030120/04070203")), None);
    assert_eq!(refusal(&format!("{head}/030140/04070203")), Some((6, 4)));
    assert_eq!(refusal(&format!("{head}/030110/04080302")), None);
    assert_eq!(refusal(&format!("{head}/030120/04080302")), Some((6, 4)));
    assert_eq!(refusal(&format!("{head}/030120/04080302/050101")), Some((6, 4)));
}

#[test]
fn disabling_breaks_weak_equality_in_its_second() {
    let (plain, silent) = ("0102000201", "0103000001010202");
    let at = |left: &str, right: &str| answer_at((left, right), LIMIT, MAX_TABLE);
    let stopped = |by: &str| format!("000102000401/01{by}/02080001");
    assert!(
        at(&format!("00{plain}"), &format!("00{silent}")).starts_with("strong different 1 | weak equal 3 | ")
    );
    assert!(at(&stopped(plain), &stopped(silent)).starts_with("strong different 1 | weak different 2 | "));
    let stopping = |first: &str| format!("00{first}/01{OTHER}/02080001");
    assert!(at(&stopping(plain), &stopping(silent)).starts_with("strong different 1 | weak equal 3 | "));
}
