//! `steps` and `pairs` against look-ups of every code and every action.

mod common;

use common::{model, rounds, Folder, Random};
use seipolku::{Table, MAX_TABLE};

const LIMIT: u64 = 1_000_000;

/// The states of a process: its bits, the lines of its leaf uses, and each state's code with the states of the leaf uses that are alive.
#[derive(Clone)]
struct States {
    bits: u32,
    uses: Vec<usize>,
    all: Vec<(u64, Vec<Option<u64>>)>,
}

fn leaf(line: usize, states: u64) -> States {
    let bits = u64::BITS - (states - 1).leading_zeros();
    States { bits, uses: vec![line], all: (0..states).map(|s| (s, vec![Some(s)])).collect() }
}

/// The states of an operator's process, with the number of each case that it adds, and which operands have a state of their own there.
fn joined(one: &States, other: &States, added: u32, cases: &[(u64, bool, bool)]) -> States {
    let choices = |of: &States, free: bool, waits: bool| match (free, waits) {
        (true, _) => of.all.clone(),
        (false, true) => vec![(0, vec![None; of.uses.len()])],
        (false, false) => of.all.iter().filter(|state| state.0 == 0).cloned().collect(),
    };
    let mut all = Vec::new();
    for (number, first, second) in cases {
        // A disabling's 0 is the case where the second is alive at its start.
        let at_start = added == 2 && *number == 0;
        for (low, low_parts) in choices(one, *first, true) {
            for (high, high_parts) in choices(other, *second, !at_start) {
                let code = number | low << added | high << (added + one.bits);
                all.push((code, [low_parts.clone(), high_parts].concat()));
            }
        }
    }
    let uses = [one.uses.clone(), other.uses.clone()].concat();
    States { bits: added + one.bits + other.bits, uses, all }
}

/// Every state of a text's last line: its code, and the leaf uses that are alive with their states, as they are written.
fn states(text: &str) -> Vec<(u64, Vec<String>)> {
    let mut lines: Vec<States> = Vec::new();
    for (number, line) in text.lines().enumerate() {
        let byte = |i: usize| usize::from_str_radix(&line[2 * i..2 * i + 2], 16).unwrap();
        let both = |added, cases: &[_]| joined(&lines[byte(2)], &lines[byte(3)], added, cases);
        let next = match byte(1) {
            1 => leaf(number, byte(2) as u64),
            2 | 6 => both(0, &[(0, true, true)]),
            7 => both(1, &[(0, true, false), (1, false, true)]),
            8 => both(2, &[(0, true, false), (1, false, true), (2, true, false)]),
            _ => lines[byte(2)].clone(),
        };
        lines.push(next);
    }
    let States { uses, all, .. } = lines.pop().unwrap();
    all.into_iter().map(|(code, parts)| (code, written(&uses, &parts))).collect()
}

fn written(uses: &[usize], parts: &[Option<u64>]) -> Vec<String> {
    let mut words = Vec::new();
    for (k, (line, state)) in uses.iter().zip(parts).enumerate() {
        let count = |some: &[usize]| some.iter().filter(|other| *other == line).count();
        let mark = if count(uses) > 1 { format!("#{}", count(&uses[..=k])) } else { String::new() };
        words.extend(state.map(|state| format!("p{line}{mark}={state}")));
    }
    words
}

/// The parts of a written state, such as `p0#1=0 p2=1`.
fn parts(words: &str) -> Vec<String> {
    words.split_whitespace().map(str::to_string).collect()
}

fn action(words: &str) -> u64 {
    match words.split_once(' ') {
        None if words == "exit" => 62,
        None => 0,
        Some((direction, channel)) => 2 * channel[1..].parse::<u64>().unwrap() + u64::from(direction == "in"),
    }
}

type Step = (Vec<String>, u64, Vec<String>);

fn printed_steps(out: &str) -> Vec<Step> {
    let mut now = Vec::new();
    let mut steps = Vec::new();
    for line in out.lines().skip(1) {
        match line.strip_prefix("  -- ") {
            None => now = parts(line),
            Some(step) => {
                let (act, next) = step.split_once(" --> ").unwrap();
                steps.push((now.clone(), action(act), parts(next)));
            }
        }
    }
    steps.sort();
    steps
}

#[test]
fn steps_are_all_that_hold() {
    let folder = Folder::new();
    let mut random = Random(20_261_116);
    for _ in 0..rounds(60) {
        let text = model(&mut random, 5).text;
        folder.write("model.hex", &text);
        let found = printed_steps(&folder.done(&["steps", "model.hex", "--all"]));
        let mut table = Table::new(MAX_TABLE).unwrap();
        let compared = table.compare(text.as_bytes(), text.as_bytes(), LIMIT).unwrap();
        let all = states(&text);
        let mut expected: Vec<Step> = Vec::new();
        for (now, parts) in &all {
            for action in 0..64 {
                for (next, next_parts) in &all {
                    if compared.left_steps(action, *now, *next).unwrap() {
                        expected.push((parts.clone(), action, next_parts.clone()));
                    }
                }
            }
        }
        expected.sort();
        assert_eq!(found, expected, "{text}");
    }
}

#[test]
fn pairs_are_all_that_hold() {
    let folder = Folder::new();
    let mut random = Random(7);
    for _ in 0..rounds(40) {
        let text = model(&mut random, 4).text;
        folder.write("model.hex", &text);
        let out = folder.done(&["pairs", "model.hex", "model.hex"]);
        let mut found: Vec<_> = out
            .lines()
            .skip(1)
            .map(|l| l.split_once("  ~  ").unwrap())
            .map(|(l, r)| (parts(l), parts(r)))
            .collect();
        let mut table = Table::new(MAX_TABLE).unwrap();
        let verdict = table.compare(text.as_bytes(), text.as_bytes(), LIMIT).unwrap().weak;
        let all = states(&text);
        let holds = |l: u64, r: u64| verdict.related(l, r).unwrap().unwrap();
        let mut expected = Vec::new();
        for (left, left_parts) in &all {
            for (right, right_parts) in &all {
                if holds(*left, *right) {
                    expected.push((left_parts.clone(), right_parts.clone()));
                }
            }
        }
        found.sort();
        expected.sort();
        assert_eq!(found, expected, "{text}");
    }
}
