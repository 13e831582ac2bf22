//! Pages that show commands with their output.

use super::{top, Folder};
use std::fs;
use std::path::Path;

/// A command of a page and the lines below it.
struct Shown {
    command: String,
    output: String,
}

/// The text of a page in docs/.
pub fn text(page: &str) -> String {
    fs::read_to_string(top().join("docs").join(page)).expect("the page")
}

fn shown(page: &str) -> Vec<Shown> {
    let mut all: Vec<Shown> = Vec::new();
    let mut inside = false;
    for line in text(page).lines() {
        match (line.strip_prefix("    $ "), line.strip_prefix("    ")) {
            (Some(command), _) => {
                all.push(Shown { command: command.to_string(), output: String::new() });
                inside = true;
            }
            (None, Some(output)) if inside => {
                let last = all.last_mut().expect("a command above");
                last.output += &format!("{output}\n");
            }
            (None, None) if line.is_empty() && inside => {
                all.last_mut().expect("a command above").output += "\n";
            }
            _ => inside = false,
        }
    }
    all
}

/// Lines without their ends and without seconds.
fn compared(text: &str) -> Vec<String> {
    let timeless = |line: &str| match line.rsplit_once(", ") {
        Some((before, time)) if time.ends_with(" s") && time.contains('.') => format!("{before}, TIME"),
        _ => line.trim_end().to_string(),
    };
    text.trim_end().lines().map(timeless).collect()
}

/// A folder with the examples' sources and the shipped models.
fn folder() -> Folder {
    let folder = Folder::new();
    let copied: [(&str, &[&str]); 3] = [
        ("examples", &["aut", "model"]),
        ("models", &["hex", "names"]),
        ("models/laws", &["model", "hex", "names"]),
    ];
    for (name, endings) in copied {
        fs::create_dir(folder.0.join(name)).expect("a folder");
        for entry in fs::read_dir(top().join(name)).expect("the shipped files") {
            let path = entry.expect("a file").path();
            let ending = path.extension().and_then(|e| e.to_str()).unwrap_or("");
            if endings.contains(&ending) {
                let target = Path::new(name).join(path.file_name().expect("a name"));
                fs::copy(&path, folder.0.join(target)).expect("a copy");
            }
        }
    }
    folder
}

/// Runs every command of a page in a folder of its own; each prints what is shown below it. The number of calls of seipolku.
pub fn runs(page: &str) -> usize {
    let folder = folder();
    let mut status = 0;
    let mut runs = 0;
    let mut called = |words: &[&str]| {
        let ran = folder.run(words);
        runs += 1;
        (ran.out, ran.err, ran.status)
    };
    for Shown { command, output } in shown(page) {
        let words: Vec<&str> = command.split_whitespace().collect();
        let found = match words[..] {
            ["cat", file] => folder.read(file),
            ["echo", "$?"] => format!("{status}\n"),
            ["./seipolku", ref rest @ .., "|", "head", "-n", count] => {
                status = 0;
                let lines = count.parse().expect("a number of lines");
                called(rest).0.lines().take(lines).map(|line| format!("{line}\n")).collect()
            }
            ["./seipolku", ref rest @ ..] => {
                let (out, err, ended) = called(rest);
                status = ended;
                out + &err
            }
            _ => panic!("the test can't run '{command}'"),
        };
        assert_eq!(compared(&found), compared(&output), "{command}");
    }
    runs
}
