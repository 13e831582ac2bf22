//! Back and forth between the forms, on generated models with generated names.

mod common;

use common::{model, rounds, Folder, Random};
use std::collections::BTreeSet;

/// Names that look like parts of the readable form, need quotes or are plain.
const NAMES: &[&str] = &[
    "a", "tau", "in", "out", "on", "to", "leaf", "states", "channels", "gates", "from", "compose", "=", "--",
    "-->", ",", "a b", "\"", "\\", "a\"b\\", "#", "0", "1", "p1", "p1_", "c2", "i", "τ", "é.x'", "x!", "?y",
    "restrict", " z ", "exit", "exit!", "enable", "then", "disable", "by", ">>", "[>",
];

fn spelled(name: &str) -> String {
    format!("\"{}\"", name.replace('\\', "\\\\").replace('"', "\\\""))
}

/// Names that only a channel with directions may have, and those that no channel may have.
const DIRECTED: &[&str] = &["tau", "i", "x!", "?y"];
const NO_CHANNEL: &[&str] = &[" z ", "exit", "exit!"];

/// The channels that may have inputs: those of a leaf's inputs, and those that others become.
fn inputs(text: &str) -> BTreeSet<u8> {
    let byte = |line: &str, index: usize| u8::from_str_radix(&line[2 * index..2 * index + 2], 16).unwrap();
    let mut all = BTreeSet::new();
    for line in text.lines() {
        match byte(line, 1) {
            1 => all.extend(
                (4..line.len() / 2).step_by(3).map(|i| byte(line, i)).filter(|a| a % 2 == 1).map(|a| a / 2),
            ),
            4 => drop(all.insert(byte(line, 4))),
            _ => {}
        }
    }
    all
}

/// A name table for parts of a model, each kind of thing with different names.
fn names(random: &mut Random, text: &str) -> String {
    let mut table = String::new();
    let inputs = inputs(text);
    let mut unused: Vec<&str> = NAMES.iter().copied().filter(|name| !NO_CHANNEL.contains(name)).collect();
    for number in 1..=30 {
        let often = matches!(number, 1..=3 | 30);
        if random.below(if often { 2 } else { 8 }) == 0 && !unused.is_empty() {
            let name = unused.remove(random.below(unused.len()));
            let directed = inputs.contains(&number) || DIRECTED.contains(&name);
            let kind = if directed { "channel" } else { *random.pick(&["channel", "gate"]) };
            table += &format!("{kind} {number} {}\n", spelled(name));
        }
    }
    let mut unused: Vec<&str> = NAMES.to_vec();
    for (number, line) in text.lines().enumerate() {
        if random.below(2) == 0 {
            table += &format!("process {number} {}\n", spelled(unused.remove(random.below(unused.len()))));
        }
        if &line[2..4] == "01" {
            table += &state_names(random, number, usize::from_str_radix(&line[4..6], 16).unwrap());
        }
    }
    table
}

fn state_names(random: &mut Random, line: usize, states: usize) -> String {
    let mut unused: Vec<&str> = NAMES.to_vec();
    let mut table = String::new();
    for state in 0..states {
        if random.below(2) == 0 && !unused.is_empty() {
            table +=
                &format!("state {line} {state} {}\n", spelled(unused.remove(random.below(unused.len()))));
        }
    }
    table
}

/// The lines of a name table, all names in quotes.
fn entries(table: &str) -> BTreeSet<String> {
    let entry = |line: &str| {
        let count = if line.starts_with("state") { 4 } else { 3 };
        let mut parts: Vec<String> = line.splitn(count, ' ').map(str::to_string).collect();
        if let Some(name) = parts.last_mut().filter(|n| !n.starts_with('"')) {
            *name = format!("\"{name}\"");
        }
        parts.join(" ")
    };
    table.lines().filter(|l| !l.starts_with('#')).map(entry).collect()
}

fn without_first_line(text: &str) -> &str {
    text.split_once('\n').map_or("", |(_, rest)| rest)
}

#[test]
fn text_and_back() {
    let folder = Folder::new();
    let mut random = Random(1_234_567);
    for round in 0..rounds(80) {
        let text = model(&mut random, 8).text;
        let table = if round % 4 == 0 { String::new() } else { names(&mut random, &text) };
        folder.write("one.hex", &text);
        folder.write("one.names", &table);
        folder.done(&["build", "--text", "one.hex", "--out", "two.model"]);
        folder.done(&["build", "two.model"]);
        assert_eq!(folder.read("two.hex"), text, "{table}{}", folder.read("two.model"));
        let (kept, given) = (entries(&folder.read("two.names")), entries(&table));
        assert!(given.is_subset(&kept), "{given:?}\n{kept:?}");
        let again = folder.done(&["build", "--text", "two.hex"]);
        assert_eq!(without_first_line(&again), without_first_line(&folder.read("two.model")));
    }
}

#[test]
fn shipped_models_as_text() {
    let folder = Folder::new();
    for entry in std::fs::read_dir(common::top().join("models")).unwrap() {
        let path = entry.unwrap().path();
        if path.extension().is_some_and(|e| e == "hex") {
            let name = path.to_str().unwrap();
            folder.done(&["build", "--text", name, "--out", "model.model"]);
            folder.done(&["build", "model.model"]);
            assert_eq!(folder.read("model.hex"), std::fs::read_to_string(&path).unwrap());
            let given = entries(&std::fs::read_to_string(path.with_extension("names")).unwrap());
            assert!(given.is_subset(&entries(&folder.read("model.names"))), "{name}");
        }
    }
}

struct System {
    first: usize,
    states: usize,
    transitions: BTreeSet<(usize, String, usize)>,
}

const LABELS: &[&str] = &[
    "i",
    "tau",
    "exit",
    "move!",
    "move?",
    "!log",
    "?log",
    "PUT !1",
    "GET ?x:int, y",
    "a\"b!",
    "gate",
    "c(1,2)",
    "x y?",
    "é!",
    "!?",
    "exit 1",
    "exits",
];

fn system(random: &mut Random) -> System {
    let states = 1 + random.below(12);
    let transitions = (0..random.below(30))
        .map(|_| (random.below(states), random.pick(LABELS).to_string(), random.below(states)))
        .collect();
    System { first: random.below(states), states, transitions }
}

fn written(random: &mut Random, system: &System) -> String {
    let mut text = format!("des ({},{}, {} )\n", system.first, system.transitions.len(), system.states);
    for (from, label, to) in &system.transitions {
        let label = if random.below(2) == 0 { format!("\"{label}\"") } else { label.clone() };
        text += &format!("{}({from}, {label} ,{to}){}\n", random.pick(&["", " "]), random.pick(&["", "\r"]));
    }
    text
}

/// How a label comes back: internal steps as i, termination without quotes, directions behind the name.
fn normal(label: &str) -> String {
    match label {
        "i" | "tau" => "i".to_string(),
        "exit" => "exit".to_string(),
        "!?" => "\"!?\"".to_string(),
        _ => match (label.strip_prefix('!'), label.strip_prefix('?')) {
            (Some(name), _) => format!("\"{name}!\""),
            (_, Some(name)) => format!("\"{name}?\""),
            _ => format!("\"{label}\""),
        },
    }
}

/// The part that can be reached, as `to-aut` should write it.
fn expected(system: &System) -> (String, BTreeSet<String>) {
    let mut reached = BTreeSet::from([system.first]);
    loop {
        let next = system.transitions.iter().filter(|t| reached.contains(&t.0)).map(|t| t.2);
        let all: BTreeSet<usize> = reached.iter().copied().chain(next).collect();
        if all == reached {
            break;
        }
        reached = all;
    }
    let lines: BTreeSet<String> = system
        .transitions
        .iter()
        .filter(|t| reached.contains(&t.0))
        .map(|(from, label, to)| format!("({from}, {}, {to})", normal(label)))
        .collect();
    (format!("des ({}, {}, {})", system.first, lines.len(), system.states), lines)
}

#[test]
fn aut_and_back() {
    let folder = Folder::new();
    let mut random = Random(99);
    for _ in 0..rounds(60) {
        let system = system(&mut random);
        folder.write("one.aut", written(&mut random, &system));
        folder.done(&["from-aut", "one.aut"]);
        folder.done(&["to-aut", "one.hex", "--out", "two.aut"]);
        let two = folder.read("two.aut");
        let (header, lines) = expected(&system);
        assert_eq!(two.lines().next().unwrap(), header, "{}", folder.read("one.aut"));
        assert_eq!(without_first_line(&two).lines().map(str::to_string).collect::<BTreeSet<_>>(), lines);
        folder.done(&["from-aut", "two.aut"]);
        assert_eq!(folder.done(&["to-aut", "two.hex"]), two);
        folder.done(&["from-aut", "one.aut", "two.aut"]);
        folder.done(&["compare", "one.hex", "two.hex"]);
    }
}

/// The reachable part of a model as a leaf of its own is strongly equal to the model.
#[test]
fn models_as_aut() {
    let folder = Folder::new();
    let mut random = Random(5);
    let mut leaves = 0;
    for _ in 0..rounds(40) {
        folder.write("one.hex", model(&mut random, 6).text);
        folder.done(&["build", "--text", "one.hex", "--out", "named.model"]);
        folder.done(&["build", "named.model"]);
        folder.done(&["to-aut", "named.hex", "--out", "two.aut"]);
        let converted = folder.run(&["from-aut", "two.aut", "--names", "named.names"]);
        if converted.status != 0 {
            assert!(converted.err.contains("at most"), "{}", converted.err);
            continue;
        }
        folder.done(&["compare", "one.hex", "two.hex"]);
        leaves += 1;
    }
    assert!(leaves > 20, "{leaves}");
}

/// What to-aut writes, from-aut reads back: the same file again, and strongly the same model, by name or without names.
#[test]
fn to_aut_and_back() {
    let folder = Folder::new();
    let mut random = Random(77);
    let mut leaves = [0, 0];
    for round in 0..rounds(80) {
        let text = model(&mut random, 6).text;
        let named = round % 4 != 0;
        folder.write("one.hex", &text);
        let _ = std::fs::remove_file(folder.0.join("one.names"));
        if named {
            folder.write("one.names", names(&mut random, &text));
            folder.done(&["build", "--text", "one.hex", "--out", "all.model"]);
            folder.done(&["build", "all.model"]);
            folder.write("one.names", folder.read("all.names").replace("source ", "# "));
        }
        folder.done(&["to-aut", "one.hex", "--out", "two.aut"]);
        let table: &[&str] = if named { &["--names", "one.names"] } else { &[] };
        let converted = folder.run(&[&["from-aut", "two.aut"], table].concat());
        if converted.status != 0 {
            assert!(converted.err.contains("at most"), "{}", converted.err);
            continue;
        }
        assert_eq!(folder.done(&["to-aut", "two.hex"]), folder.read("two.aut"));
        let verdict = folder.done(&["compare", "one.hex", "two.hex"]);
        let names_channels = folder.read("two.names").contains("\nchannel ");
        assert_eq!(verdict.contains("channels by number"), !named && names_channels, "{verdict}");
        leaves[usize::from(named)] += 1;
    }
    assert!(leaves[0] > 10 && leaves[1] > 30, "{leaves:?}");
}

/// A line of a picture with its strings taken out; every string must be closed.
fn without_strings(line: &str) -> String {
    let mut rest = String::new();
    let mut letters = line.chars();
    while let Some(c) = letters.next() {
        if c != '"' {
            rest.push(c);
            continue;
        }
        loop {
            match letters.next() {
                Some('\\') => drop(letters.next()),
                Some('"') => break,
                Some(_) => {}
                None => panic!("an open string: {line}"),
            }
        }
        rest.push('$');
    }
    rest
}

/// Whatever the names, a picture has a line for each state and one for each arrow.
#[test]
fn pictures() {
    let folder = Folder::new();
    let mut random = Random(31);
    for _ in 0..rounds(40) {
        let text = model(&mut random, 5).text;
        folder.write("one.hex", &text);
        folder.write("one.names", names(&mut random, &text));
        let picture = folder.done(&["show", "one.hex", "--dot"]);
        let lines: Vec<String> = picture.lines().map(without_strings).collect();
        assert_eq!(lines.first().map(String::as_str), Some("digraph $ {"));
        assert_eq!(lines.last().map(String::as_str), Some("}"));
        let states =
            lines.iter().filter(|l| l.starts_with("  s") && l.ends_with(" [label=$];") && !l.contains("->"));
        let arrow = |l: &&String| {
            l.contains("->") && (l.ends_with(" [label=$];") || l.ends_with(" [label=$, style=dashed];"))
        };
        let arrows = lines.iter().filter(arrow).count();
        assert_eq!(lines.len(), states.count() + arrows + 6, "{picture}");
    }
}
