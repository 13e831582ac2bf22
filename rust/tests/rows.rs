//! Rows of document 01 and stored answers through the safe interface: both verdicts, and the nodes of the joined list by stages.

mod common;

use common::{answer, compared, lines, nodes_of, vectors, LIMIT};
use seipolku::{model, Fault, Nodes, Table};

/// Left and right text, the answer, and its nodes up to the relations, up to the weak answers, and of the whole list. The pair of P2 is also
/// P3's, that of P4 P5's.
const ROWS: &[(&str, &str, &str, [u64; 3])] = &[
    ("000101", "000101", "strong equal 1 | weak equal 1", [0, 6, 12]),
    ("000102000201", "000103000001010202", "strong different 1 | weak equal 3", [62, 384, 956]),
    (
        "000103000201010402010602",
        "000104000201000202010403020603",
        "strong different 2 | weak different 2",
        [133, 783, 1633],
    ),
    (
        "000104000201000202020403",
        "000103000201010402",
        "strong different 2 | weak different 2",
        [106, 686, 1501],
    ),
    (
        "000102000201/010102000301/02020001/03030201",
        "000102000001",
        "strong equal 2 | weak equal 1",
        [101, 351, 574],
    ),
    ("000102000201/01050001", "000102000001", "strong equal 2 | weak equal 1", [60, 168, 300]),
    ("000102000201/0106000001", "000102000201", "strong equal 2 | weak equal 2", [74, 311, 649]),
    ("000102000201/0104000102", "000102000401", "strong equal 2 | weak equal 2", [48, 150, 373]),
];

fn compare(left: &str, right: &str, limit: u64, entries: usize) -> String {
    let [left, right] = [left, right].map(lines);
    answer([&left, &right], limit, entries)
}

/// An answer or a refusal with its numbers of nodes, in the words of a vector.
fn with_numbers(said: &str, [relations, answers, whole]: [u64; 3]) -> String {
    format!("{said} | {relations} {answers} {whole}")
}

/// Each row on tables that its list just fits, and on larger ones.
#[test]
fn rows() {
    for (left, right, verdicts, nodes) in ROWS {
        let whole = nodes[2] as usize;
        for entries in [whole + 2, whole + 3, 4096] {
            for limit in [LIMIT, u64::MAX] {
                assert_eq!(compare(left, right, limit, entries), with_numbers(verdicts, *nodes));
            }
        }
    }
}

/// Checks the answer and its nodes on a table into which so many nodes fit: 8 where that is too few, and no number above them.
fn check_room(texts: [&str; 2], limit: u64, verdicts: &str, nodes: [u64; 3], room: u64) {
    let texts = texts.map(lines);
    let mut table = Table::new(room as usize + 2).unwrap();
    let found = table.compare(&texts[0], &texts[1], limit);
    let fits = nodes[2] <= room;
    let said = if fits { verdicts } else { "refused 8 2 0" };
    let case = format!("{texts:?} {limit} {room}");
    let [relations, answers, whole] = nodes.map(|number| number.min(room));
    assert_eq!(compared(&found), with_numbers(said, [relations, answers, whole]), "{case}");
    let nodes = Nodes { relations, answers, whole };
    assert_eq!(nodes_of(&found), Some(nodes), "{case}");
    if let Err(refusal) = found {
        assert_eq!(refusal.fault, Fault::Full(nodes), "{case}");
    }
}

/// Tables one below, at and above each of the three numbers, and the smallest ones.
fn check_rooms(texts: [&str; 2], limit: u64, verdicts: &str, nodes: [u64; 3]) {
    for room in nodes.iter().flat_map(|number| number.saturating_sub(1)..=number + 1).chain([0, 1, 4094]) {
        check_room(texts, limit, verdicts, nodes, room);
    }
}

#[test]
fn where_the_nodes_went() {
    for (left, right, verdicts, nodes) in ROWS {
        check_rooms([left, right], LIMIT, verdicts, *nodes);
    }
}

/// Every limit up to the verdicts, with 9 in both places, in one, and in none: the first two numbers are the same at every limit.
#[test]
fn limits() {
    let p1 = ["000101"; 2];
    let p2 = ["000102000201", "000103000001010202"];
    let p4 = ["000103000201010402010602", "000104000201000202010403020603"];
    let p7 = ["000102000201/010102000301/02020001/03030201", "000102000001"];
    let both = "strong refused 9 2 0 | weak refused 9 2 0";
    let cases: &[(_, u64, &str, [u64; 3])] = &[
        (p1, 0, both, [0, 6, 6]),
        (p1, 1, "strong equal 1 | weak equal 1", [0, 6, 12]),
        (p2, 0, both, [62, 384, 385]),
        (p2, 1, "strong different 1 | weak refused 9 2 0", [62, 384, 670]),
        (p2, 2, "strong different 1 | weak refused 9 2 0", [62, 384, 859]),
        (p2, 3, "strong different 1 | weak equal 3", [62, 384, 956]),
        (p4, 0, both, [133, 783, 784]),
        (p4, 1, both, [133, 783, 1316]),
        (p4, 2, "strong different 2 | weak different 2", [133, 783, 1633]),
        (p7, 0, both, [101, 351, 351]),
        (p7, 1, "strong refused 9 2 0 | weak equal 1", [101, 351, 495]),
        (p7, 2, "strong equal 2 | weak equal 1", [101, 351, 574]),
    ];
    for (texts, limit, verdicts, nodes) in cases {
        check_rooms(*texts, *limit, verdicts, *nodes);
    }
}

/// The whole call is refused where a text is, the left one first, and before any 8; 8 comes before any 9.
#[test]
fn refusals() {
    assert_eq!(compare("000101/01", "000141", LIMIT, 2), "refused 2 0 1");
    assert_eq!(compare("000101", "000141", LIMIT, 2), "refused 5 1 0");
    assert_eq!(compare("000101", "000101", 0, 7), "refused 8 2 0 | 0 5 5");
    assert_eq!(compare("000102000201", "000103000001010202", 0, 386), "refused 8 2 0 | 62 384 384");
}

/// Refusals 1 to 6 tell of no nodes, in tables of any length; nor does the refusal of a look-up.
#[test]
fn refusals_without_nodes() {
    let too_large = "000140/01020000/02020101/03020002";
    let texts = ["00010", "00", "010101", "000901", "000141", too_large];
    for (number, text) in (1..).zip(texts.map(lines)) {
        assert_eq!(model(&text).unwrap_err().nodes(), None, "{number}");
        for entries in [2, 3, 4096] {
            let mut table = Table::new(entries).unwrap();
            for texts in [[&text[..], b"000101\n"], [b"000101\n", &text]] {
                let refusal = table.compare(texts[0], texts[1], LIMIT).unwrap_err();
                assert_eq!((refusal.fault.number(), refusal.nodes()), (number, None));
            }
        }
    }
    let mut table = Table::new(14).unwrap();
    let compared = table.compare(b"000101\n", b"000101\n", LIMIT).unwrap();
    let refusal = compared.left.look_up(64, [0; 4]).unwrap_err();
    assert_eq!((refusal.fault.number(), refusal.nodes()), (10, None));
}

#[test]
fn a_full_table_in_words() {
    let refusal =
        Table::new(300).unwrap().compare(b"000102000201\n", b"000103000001010202\n", LIMIT).unwrap_err();
    let words = "the comparison needs more nodes than the 298 that fit into the table; \
                 of these 62 are of the relations, and 298 of the relations and the weak answers";
    assert_eq!(refusal.to_string(), words);
}

/// Every stored comparison on a table that there is. The numbers never fall, and no number is above the nodes that fit.
#[test]
fn stored_answers() {
    let mut runs = 0;
    for vector in vectors("tests/vectors.tsv") {
        if (2..=seipolku::MAX_TABLE).contains(&vector.entries) {
            let [left, right] = &vector.texts;
            let mut table = Table::new(vector.entries).unwrap();
            let found = table.compare(left, right, vector.limit);
            assert_eq!(compared(&found), vector.answer, "{}", vector.name);
            let room = vector.entries as u64 - 2;
            if let Some(Nodes { relations, answers, whole }) = nodes_of(&found) {
                assert!(relations <= answers && answers <= whole && whole <= room, "{}", vector.name);
                assert!(found.is_ok() || whole == room, "{}", vector.name);
            }
            runs += 1;
        }
    }
    assert!(runs > 150, "{runs}");
}
