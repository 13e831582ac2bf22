//! The shipped pairs with their stored verdicts, rounds and nodes; exit statuses.

mod common;

use common::{run, top, Folder};
use seipolku::MAX_TABLE;
use std::fs;

/// The first number or word after a member's name in a JSON object.
fn member(object: &str, name: &str) -> String {
    let after = object.split(&format!("\"{name}\": ")).nth(1).unwrap_or("");
    after.chars().take_while(|c| !matches!(c, ',' | '}')).filter(|c| *c != '"').collect()
}

/// The verdict and the rounds of one of the answers.
fn answer(object: &str, mode: &str) -> [String; 2] {
    let after = object.split(&format!("\"mode\": \"{mode}\"")).nth(1).unwrap_or("");
    ["verdict", "rounds"].map(|name| member(after, name))
}

/// The numbers that tell where the nodes went.
fn numbers(object: &str) -> [u64; 3] {
    let up_to = object.split("\"nodes_up_to\": ").nth(1).expect("the numbers");
    ["relations", "answers", "whole"].map(|name| member(up_to, name).parse().expect("a number"))
}

/// A pair with its two verdicts, by one call, and the exit status by each of them and by both.
#[test]
fn shipped_pairs() {
    let rows = fs::read_to_string(top().join("models/EXPECTED.tsv")).expect("the stored verdicts");
    let rows: Vec<&str> = rows.lines().filter(|row| !row.starts_with('#')).collect();
    assert!(rows.len() > 70, "{} pairs", rows.len());
    for row in rows {
        let [left, right, strong, strong_rounds, weak, weak_rounds, relations, answers, nodes] =
            row.split('\t').collect::<Vec<_>>()[..]
        else {
            panic!("{row}");
        };
        let files = [left, right].map(|file| format!("models/{file}"));
        let compare = |more: &[&str]| run(&[&["compare", &files[0], &files[1]], more].concat());
        let ran = compare(&["--json"]);
        assert!(ran.err.is_empty(), "{row}: {}", ran.err);
        let stored = [relations, answers, nodes].map(|number| number.parse().unwrap_or(MAX_TABLE as u64 - 2));
        assert_eq!(numbers(&ran.out), stored, "{row}");
        if nodes == "-" {
            assert_eq!((member(&ran.out, "number"), ran.status), ("8".to_string(), 2), "{row}");
            continue;
        }
        assert_eq!(answer(&ran.out, "strong"), [strong, strong_rounds], "{row}");
        assert_eq!(answer(&ran.out, "weak"), [weak, weak_rounds], "{row}");
        assert_eq!(member(&ran.out, "nodes"), nodes, "{row}");
        let status = |verdict: &str| i32::from(verdict == "different");
        assert_eq!(ran.status, status(strong).max(status(weak)), "{row}");
        for (mode, verdict) in [("strong", strong), ("weak", weak)] {
            let ran = compare(&["--mode", mode, "--quiet"]);
            assert_eq!((ran.status, &ran.out[..], &ran.err[..]), (status(verdict), "", ""), "{row}");
        }
    }
}

/// A pair that fills the largest table, whose weak verdict falls after one round, and not by any limit the strong one.
fn hidden_leaves(folder: &Folder) -> [String; 2] {
    let stored = fs::read_to_string(top().join("tests/vectors.tsv")).expect("the stored vectors");
    let row = stored
        .lines()
        .find(|row| row.starts_with("big 24 bits hidden self, longest table"))
        .expect("it is stored");
    let texts: Vec<&str> = row.split('\t').collect();
    [("left.hex", texts[1]), ("right.hex", texts[2])].map(|(name, text)| {
        folder.write(name, text.replace('/', "\n"));
        folder.0.join(name).to_string_lossy().into_owned()
    })
}

/// The verdicts of a comparison's lines that are no refusals.
fn fallen(out: &str) -> Vec<&'static str> {
    let fell = |mode: &str| {
        ["different", "equal"].iter().any(|verdict| out.contains(&format!("{mode:<6}  {verdict}")))
    };
    ["strong", "weak"].into_iter().filter(|mode| fell(mode)).collect()
}

/// Where the largest table is full, a limit that is advised gives the verdict that is named; where none is, no limit up to the first that is
/// refused gives a verdict.
#[test]
fn advised_limits() {
    let rows = fs::read_to_string(top().join("models/EXPECTED.tsv")).expect("the stored verdicts");
    let folder = Folder::new();
    let mut pairs = vec![hidden_leaves(&folder)];
    for row in rows.lines() {
        if let [left, right, .., "-"] = row.split('\t').collect::<Vec<_>>()[..] {
            pairs.push([left, right].map(|file| format!("models/{file}")));
        }
    }
    let mut advised = Vec::new();
    let mut reordered = 0;
    for files in &pairs {
        let compare = |more: &[&str]| run(&[&["compare", &files[0], &files[1]], more].concat()).out;
        let whole = compare(&[]);
        let Some((_, advice)) = whole.split_once(", but --limit ") else {
            let by_limit = |limit: u32| compare(&["--limit", &limit.to_string()]);
            let fitting: Vec<String> =
                (1..).map(by_limit).take_while(|out| !out.contains("Refusal 8")).collect();
            assert!(fitting.iter().all(|out| fallen(out).is_empty()), "{files:?}: {fitting:?}");
            let rounds = match fitting.len() {
                0 => "not one round fits".to_string(),
                1 => "1 round fits, without a verdict".to_string(),
                more => format!("{more} rounds fit, without a verdict"),
            };
            assert!(whole.ends_with(&format!(", and no limit helps: {rounds}.\n")), "{files:?}: {whole}");
            continue;
        };
        let limit = advice.split(' ').next().expect("a number");
        let [given] = fallen(&compare(&["--limit", limit]))[..] else { panic!("{files:?}: {whole}") };
        assert!(advice.contains(&format!("gives the {given} verdict alone")), "{files:?}: {whole}");
        let other = if given == "weak" { "strong" } else { "weak" };
        let words = format!("no limit gives the {other} verdict; --limit {limit} gives the {given} one.");
        assert!(compare(&["--mode", other]).contains(&words), "{files:?} {words}");
        advised.push((limit.to_string(), given));
        if files[0].starts_with("models/laws/") {
            reordered += 1;
        }
    }
    assert_eq!(advised.len() - reordered, 4, "{advised:?}");
    assert_eq!(reordered, 1, "{advised:?}");
    assert!(
        advised.contains(&("1".to_string(), "weak")) && advised.contains(&("6".to_string(), "strong")),
        "{advised:?}"
    );
}

#[test]
fn statuses() {
    let right = ["models/shuttle_one.hex", "models/shuttle_one_service.hex"];
    let status = |words: &[&str]| run(&[&["compare", right[0], right[1]], words].concat()).status;
    assert_eq!(status(&["--mode", "weak"]), 0);
    assert_eq!(status(&["--mode", "strong"]), 1);
    assert_eq!(status(&["--mode", "both"]), 1);
    assert_eq!(status(&[]), 1);
    assert_eq!(status(&["--limit", "0"]), 2);
    // The nodes of both verdicts do not fit, so that neither is given, whichever is asked for.
    for mode in ["both", "strong", "weak"] {
        assert_eq!(status(&["--nodes", "2474", "--mode", mode]), 2);
        assert_eq!(status(&["--nodes", "1,048,577", "--mode", mode]), 2);
    }
    assert_eq!(status(&["--nodes", "2475"]), 1);
    assert_eq!(status(&["--mode", "odd"]), 3);
    assert_eq!(run(&["compare", right[0]]).status, 3);
    assert_eq!(run(&["compare", right[0], "models/nothing.hex"]).status, 3);
    assert_eq!(run(&["steps", "models/abp.hex", "--most", "1"]).status, 3);
    assert_eq!(run(&["frobnicate"]).status, 3);
    assert_eq!(run(&[]).status, 3);
    assert_eq!(run(&["pairs", right[0], right[1]]).status, 0);
    assert_eq!(run(&["pairs", "models/shuttle_one_faulty.hex", right[1]]).status, 1);
    assert_eq!(run(&["--version"]).status, 0);
}

/// A verdict that does not fall by the limit counts only where it is asked for; `pairs` reads the bisimulation of the other one.
#[test]
fn limits() {
    let folder = Folder::new();
    folder.write("step.hex", "000102000201\n");
    folder.write("late.hex", "000103000001010202\n");
    folder.write("met.hex", "000102000201\n010102000301\n02020001\n03030201\n");
    folder.write("tau.hex", "000102000001\n");
    // Strong different after 1 round, weak equal after 3; strong equal after 2, weak equal after 1. The statuses are those of strong and
    // of weak, and the worst of both.
    let (late, met) = (["step.hex", "late.hex"], ["met.hex", "tau.hex"]);
    for (files, limit, statuses) in [
        (late, "0", [2, 2]),
        (late, "1", [1, 2]),
        (late, "3", [1, 0]),
        (met, "1", [2, 0]),
        (met, "2", [0, 0]),
        (met, "18446744073709551615", [0, 0]),
    ] {
        let run =
            |command, mode| folder.run(&[command, files[0], files[1], "--limit", limit, "--mode", mode]);
        assert_eq!(Some(&run("compare", "both").status), statuses.iter().max(), "{files:?} {limit}");
        for (mode, status) in ["strong", "weak"].into_iter().zip(statuses) {
            let [compared, listed] = ["compare", "pairs"].map(|command| run(command, mode));
            assert_eq!([compared.status, listed.status], [status; 2], "{files:?} {limit} {mode}");
            let explained = format!("Refusal 9, {mode} verdict: ");
            assert_eq!(compared.out.contains(&explained), status == 2, "{}", compared.out);
            assert_eq!(listed.out.starts_with(&explained), status == 2, "{}", listed.out);
        }
    }
}

#[test]
fn quiet() {
    let faulty = ["models/shuttle_one_faulty.hex", "models/shuttle_one_service.hex", "--quiet"];
    let run = |more: &[&str]| run(&[&["compare"], &faulty[..], more].concat());
    let ran = run(&[]);
    assert_eq!((ran.out.as_str(), ran.err.as_str(), ran.status), ("", "", 1));
    let refused = run(&["--nodes", "100"]);
    assert_eq!((refused.out.as_str(), refused.status), ("", 2));
    assert!(refused.err.contains("Refusal 8"), "{}", refused.err);
    let undecided = run(&["--limit", "1"]);
    assert_eq!((undecided.out.as_str(), undecided.status), ("", 2));
    assert!(undecided.err.starts_with("Refusal 9, weak verdict: "), "{}", undecided.err);
    let strong = run(&["--limit", "1", "--mode", "strong"]);
    assert_eq!((strong.out.as_str(), strong.err.as_str(), strong.status), ("", "", 1));
}
