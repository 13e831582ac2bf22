//! What the tests share: the stored vectors, an answer in their words, and all steps of a model.
#![allow(dead_code)]

use seipolku::{model, Comparison, Nodes, Refusal, Side, Table, Verdict};
use std::fs;
use std::path::PathBuf;

pub const LIMIT: u64 = 1_000_000;

pub fn repository(file: &str) -> PathBuf {
    PathBuf::from(env!("CARGO_MANIFEST_DIR")).join("..").join(file)
}

/// A stored comparison.
pub struct Vector {
    pub name: String,
    pub texts: [Vec<u8>; 2],
    pub limit: u64,
    pub entries: usize,
    pub answer: String,
}

/// The vectors of a file: name, left text, right text, limit, table's length, answer.
pub fn vectors(file: &str) -> Vec<Vector> {
    let all = fs::read_to_string(repository(file)).unwrap();
    let vector = |line: &str| {
        let [name, left, right, limit, entries, answer] = line.split('\t').collect::<Vec<_>>()[..] else {
            panic!("{line}");
        };
        let (limit, entries) = (limit.parse().unwrap(), entries.parse().unwrap());
        let (name, answer) = (name.to_string(), answer.to_string());
        Vector { name, texts: [text(left), text(right)], limit, entries, answer }
    };
    all.lines().filter(|line| !line.is_empty() && !line.starts_with('#')).map(vector).collect()
}

/// `/` stands for byte 0A and `\xHH` for byte HH.
pub fn text(field: &str) -> Vec<u8> {
    let mut bytes = Vec::new();
    let mut rest = field.as_bytes();
    while let Some((first, tail)) = rest.split_first() {
        rest = tail;
        match first {
            b'/' => bytes.push(b'\n'),
            b'\\' => {
                bytes.push(u8::from_str_radix(std::str::from_utf8(&rest[1..3]).unwrap(), 16).unwrap());
                rest = &rest[3..];
            }
            other => bytes.push(*other),
        }
    }
    bytes
}

/// The answer of a comparison on a table of its own, in the words of a vector.
pub fn answer(texts: [&[u8]; 2], limit: u64, entries: usize) -> String {
    let mut table = Table::new(entries).unwrap();
    let found = table.compare(texts[0], texts[1], limit);
    compared(&found)
}

/// An answer or a refusal, in the words of a vector.
pub fn compared(found: &Result<Comparison<'_>, Refusal>) -> String {
    match found {
        Ok(compared) => shown(compared),
        Err(refusal) => refused(refusal),
    }
}

/// Where the nodes went, as far as it is told.
pub fn nodes_of(found: &Result<Comparison<'_>, Refusal>) -> Option<Nodes> {
    found.as_ref().map_or_else(Refusal::nodes, |compared| Some(compared.nodes))
}

pub fn shown(compared: &Comparison<'_>) -> String {
    let Comparison { strong, weak, nodes, .. } = compared;
    format!("strong {} | weak {} | {}", verdict(strong), verdict(weak), numbers(nodes))
}

fn numbers(nodes: &Nodes) -> String {
    format!("{} {} {}", nodes.relations, nodes.answers, nodes.whole)
}

fn verdict(verdict: &Verdict<'_>) -> String {
    match verdict {
        Verdict::Equal { rounds, .. } => format!("equal {rounds}"),
        Verdict::Different { rounds } => format!("different {rounds}"),
        Verdict::Undecided => "refused 9 2 0".to_string(),
    }
}

fn refused(refusal: &Refusal) -> String {
    let side = match refusal.side {
        Side::Left => 0,
        Side::Right => 1,
        Side::Neither => 2,
    };
    let nodes = refusal.nodes().map_or(String::new(), |nodes| format!(" | {}", numbers(&nodes)));
    format!("refused {} {side} {}{nodes}", refusal.fault.number(), refusal.line)
}

/// A text whose lines have `/` between them.
pub fn lines(written: &str) -> Vec<u8> {
    text(&format!("{written}/"))
}

/// All steps from states as now code, action and next code: by the walk and by look-ups of every code and action, which must agree. Each
/// leads to a state, and the right model, which is the same, has it too.
pub fn steps(written: &str) -> Vec<(u64, u64, u64)> {
    let text = lines(written);
    let found = model(&text).unwrap();
    let mut table = Table::new(1 << 16).unwrap();
    let compared = table.compare(&text, &text, LIMIT).unwrap();
    let mut all = Vec::new();
    for now in found.layout.codes() {
        let mut walked: Vec<(u64, u64)> = compared.left_steps_from(now, &found).unwrap().collect();
        walked.sort_unstable();
        let every = (0..64).flat_map(|action| (0..1 << found.bits).map(move |next| (action, next)));
        let held = every.filter(|(action, next)| compared.left_steps(*action, now, *next).unwrap());
        assert!(held.eq(walked.iter().copied()), "{written} {now}");
        for (action, next) in walked {
            assert!(found.layout.is_state(next), "{written}: {now} {action} {next}");
            assert_eq!(compared.right_steps(action, now, next), Ok(true));
            all.push((now, action, next));
        }
    }
    all
}
