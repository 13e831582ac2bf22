//! Exit statuses, and an object with --json in every case.

mod common;

use common::{run, Folder};

/// Whether a text is one JSON object; a small reader of its own.
fn object(text: &str) -> bool {
    let mut letters = text.trim_end_matches('\n').chars().peekable();
    text.starts_with('{') && value(&mut letters) && letters.next().is_none() && text.ends_with("}\n")
}

type Letters<'a> = std::iter::Peekable<std::str::Chars<'a>>;

fn value(letters: &mut Letters) -> bool {
    match letters.peek() {
        Some('{') => {
            list(letters, '}', |l| string(l) && l.next() == Some(':') && l.next() == Some(' ') && value(l))
        }
        Some('[') => list(letters, ']', value),
        Some('"') => string(letters),
        _ => {
            let mut word = String::new();
            while let Some(c) = letters.next_if(|c| c.is_ascii_alphanumeric() || *c == '.') {
                word.push(c);
            }
            word == "null" || word.parse::<f64>().is_ok()
        }
    }
}

fn list(letters: &mut Letters, end: char, item: impl Fn(&mut Letters) -> bool) -> bool {
    letters.next();
    if letters.next_if_eq(&end).is_some() {
        return true;
    }
    loop {
        if !item(letters) {
            return false;
        }
        match letters.next() {
            Some(',') if letters.next() == Some(' ') => {}
            Some(c) => return c == end,
            None => return false,
        }
    }
}

fn string(letters: &mut Letters) -> bool {
    if letters.next() != Some('"') {
        return false;
    }
    loop {
        match letters.next() {
            Some('"') => return true,
            Some('\\') => match letters.next() {
                Some('u') if letters.by_ref().take(4).filter(char::is_ascii_hexdigit).count() == 4 => {}
                Some('"' | '\\' | 'n') => {}
                _ => return false,
            },
            Some(c) if c >= ' ' => {}
            _ => return false,
        }
    }
}

/// Words for the command, its exit status, and a part of the object.
const JSON_CASES: &[(&[&str], i32, &str)] = &[
    (&["compare", "a.hex", "a.hex"], 0, "\"verdict\": \"equal\""),
    (&["compare", "a.hex", "b.hex"], 1, "\"verdict\": \"different\""),
    (&["compare", "bad.hex", "a.hex"], 2, "\"number\": 5, \"side\": \"left\", \"line\": 0"),
    (&["compare", "a.hex", "bad.hex"], 2, "\"number\": 5, \"side\": \"right\", \"line\": 0"),
    (
        &["compare", "a.hex", "a.hex", "--nodes", "4"],
        2,
        "\"number\": 8, \"side\": \"neither\", \"line\": null",
    ),
    (&["compare", "a.hex", "a.hex", "--nodes", "1"], 2, "\"number\": 7, \"side\": \"neither\", \"line\": null"),
    (&["compare", "a.hex", "a.hex", "--limit", "0"], 2, "\"number\": 9"),
    (&["compare", "a.hex", "bad.hex"], 2, "\"nodes\": null, \"nodes_up_to\": null, \"seconds\": "),
    (
        &["compare", "a.hex", "a.hex", "--mode", "weak"],
        0,
        "\"answers\": [{\"mode\": \"weak\", \"verdict\": \"equal\", \"rounds\": 2}], \"nodes\": ",
    ),
    (&["compare", "a.hex", "late.hex", "--limit", "1", "--mode", "strong"], 1, "\"rounds\": 1}], "),
    (
        &["compare", "a.hex", "late.hex", "--limit", "1"],
        2,
        "\"rounds\": 1}, {\"mode\": \"weak\", \"verdict\": \"refused\", \"number\": 9, \"side\": \"neither\", \"line\": null, ",
    ),
    (&["compare", "a.hex", "a.hex", "--quiet"], 0, "\"verdict\": \"equal\""),
    (&["compare", "a.hex", "named.hex"], 0, "does not name its channels"),
    (&["compare", "other.hex", "named.hex"], 3, "the name tables disagree"),
    (&["compare", "broken.hex", "named.hex"], 3, "broken.names, line 1, column 1: "),
    (&["compare", "a.hex", "nothing.hex"], 3, "nothing.hex can't be read"),
    (&["compare", "a.hex"], 3, "compare takes two files"),
    (&["compare", "a.hex", "a.hex", "--fast"], 3, "compare has no option --fast"),
    (&["compare", "a.hex", "a.hex", "--nodes", "x"], 3, "from 2 to 1,048,576, not 'x'"),
    (&["compare", "a.hex", "a.hex", "--mode", "x"], 3, "--mode takes strong, weak or both"),
    (&["compare", "a.hex", "a.hex", "--json=yes"], 3, "--json takes no value"),
    (&["pairs", "a.hex", "a.hex"], 3, "pairs has no option --json"),
    (&["frobnicate"], 3, "there is no subcommand"),
    (&[], 3, "there is no subcommand '--json'"),
];

#[test]
fn json_in_every_case() {
    let folder = Folder::new();
    folder.write("a.hex", "000102000201\n");
    folder.write("b.hex", "000102000401\n");
    folder.write("late.hex", "000103000001010202\n");
    folder.write("bad.hex", "000102000202\n");
    folder.write("named.hex", "000102000201\n");
    folder.write("named.names", "channel 1 a\n");
    folder.write("other.hex", "000102000201\n");
    folder.write("other.names", "channel 1 b\n");
    folder.write("broken.hex", "000102000201\n");
    folder.write("broken.names", "\u{1}\n");
    for (words, status, expected) in JSON_CASES {
        let ran = folder.run(&[words, &["--json"][..]].concat());
        assert_eq!(ran.status, *status, "{words:?}: {}{}", ran.out, ran.err);
        assert!(object(&ran.out), "{words:?}: {}", ran.out);
        assert!(ran.out.contains(expected), "{words:?}: {}", ran.out);
        assert!(ran.out.ends_with(&format!("\"status\": {status}}}\n")), "{words:?}: {}", ran.out);
        assert_eq!(ran.err, "", "{words:?}");
    }
    assert!(!object("{\"a\": }\n") && !object("{\"a\": 1\n") && !object("1\n"));
}

/// The library's refusals have status 2, everything before it is asked 3.
#[test]
fn refused_or_wrong() {
    let folder = Folder::new();
    folder.write("bad.hex", "000102000202\n");
    folder.write("large.model", "leaf a\n  states s0, s1, s2\nb = compose a a a a a a\nc = compose b b a\n");
    for command in [&["check"][..], &["show"], &["steps"], &["to-aut"], &["build", "--text"]] {
        assert_eq!(folder.run(&[command, &["bad.hex"]].concat()).status, 2, "{command:?}");
        assert_eq!(folder.run(&[command, &["none.hex"]].concat()).status, 3, "{command:?}");
        assert_eq!(folder.run(&[command, &["bad.hex", "--odd"]].concat()).status, 3, "{command:?}");
    }
    assert_eq!(folder.run(&["pairs", "bad.hex", "bad.hex"]).status, 2);
    assert_eq!(folder.run(&["compare", "bad.hex", "bad.hex"]).status, 2);
    let ran = folder.run(&["build", "large.model"]);
    assert_eq!(ran.status, 2, "{}", ran.err);
    assert!(ran.err.contains("large.model, line 4, column 1: refusal 6"), "{}", ran.err);
    assert_eq!(run(&["--help"]).status, 0);
}
