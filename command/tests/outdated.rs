//! A text whose source has changed since it was built is refused, with the command that builds it anew.

mod common;

use common::{top, Folder};
use std::fs;

const MODEL: &str = "channels a\nleaf x\n  s -- out a --> t\n";
const OTHER: &str = "channels a\nleaf x\n  s -- out a --> t\n  t -- out a --> s\n";

const READERS: &[&[&str]] = &[
    &["compare", "x.hex", "y.hex"],
    &["compare", "y.hex", "x.hex", "--quiet"],
    &["compare", "y.hex", "x.hex", "--by-number"],
    &["pairs", "x.hex", "y.hex"],
    &["steps", "x.hex"],
    &["show", "x.hex"],
    &["show", "x.hex", "--dot"],
    &["check", "x.hex"],
    &["to-aut", "x.hex"],
    &["build", "--text", "x.hex"],
];

fn built() -> Folder {
    let folder = Folder::new();
    folder.write("x.model", MODEL);
    folder.write("y.model", MODEL);
    folder.done(&["build", "x.model", "y.model"]);
    folder
}

/// Every subcommand that reads the text refuses it with the sentence.
fn outdated(folder: &Folder, expected: &str) {
    for words in READERS {
        let ran = folder.run(words);
        assert_eq!((ran.status, &ran.out[..]), (3, ""), "{words:?}: {}", ran.err);
        assert!(ran.err.contains(expected), "{words:?}: {}", ran.err);
    }
    let json = folder.run(&["compare", "x.hex", "y.hex", "--json"]);
    assert_eq!((json.status, &json.err[..]), (3, ""));
    assert!(json.out.starts_with("{\"error\": ") && json.out.contains(expected), "{}", json.out);
}

fn accepted(folder: &Folder) {
    for words in READERS {
        folder.done(words);
    }
}

/// Runs the command that a sentence gives in quotes.
fn follow(folder: &Folder, words: &[&str]) {
    let said = folder.run(words).err;
    let command = said.split("'seipolku ").nth(1).and_then(|s| s.split('\'').next()).expect("a command");
    folder.done(&command.split(' ').collect::<Vec<_>>());
}

#[test]
fn changed_source() {
    let folder = built();
    accepted(&folder);
    folder.write("x.model", OTHER);
    outdated(
        &folder,
        "x.model has changed since x.hex was built from it. Rebuild it with 'seipolku build x.model",
    );
    let ran = folder.run(&["steps", "x.hex"]);
    assert!(
        ran.err.contains("'seipolku build x.model'; or, to keep the text as it is, remove the lines"),
        "{}",
        ran.err
    );
    follow(&folder, &["steps", "x.hex"]);
    assert_eq!(folder.run(&["compare", "x.hex", "y.hex"]).status, 1);
    folder.write("x.model", MODEL);
    let ran = folder.run(&["compare", "x.hex", "y.hex"]);
    assert!(ran.err.contains("'seipolku build x.model --names y.names'"), "{}", ran.err);
    follow(&folder, &["compare", "x.hex", "y.hex"]);
    accepted(&folder);
}

/// A source with a mistake leaves the old text, which is not taken for it.
#[test]
fn failed_build() {
    let folder = built();
    folder.write("x.model", "leaf x\n  s -- tau\n");
    assert_eq!(folder.run(&["build", "x.model"]).status, 3);
    outdated(&folder, "x.model has changed since x.hex was built from it.");
}

/// The content counts, not the time.
#[test]
fn written_again() {
    let folder = built();
    folder.write("x.model", OTHER);
    folder.write("x.model", MODEL);
    accepted(&folder);
}

#[test]
fn changed_text() {
    let folder = built();
    folder.write("x.hex", "000103000201\n");
    outdated(
        &folder,
        "x.hex is not the text that was built from x.model. Rebuild it with 'seipolku build x.model",
    );
    accepted_without(&folder, "x.model");
    folder.write("x.names", folder.read("x.names").replace("text ", "# ").replace("source ", "# "));
    folder.done(&["show", "x.hex"]);
}

#[test]
fn aut_files() {
    let folder = Folder::new();
    folder.write("x.aut", "des (0, 1, 2)\n(0, a!, 1)\n");
    folder.write("y.aut", "des (0, 1, 2)\n(0, a!, 1)\n");
    folder.done(&["from-aut", "x.aut", "y.aut"]);
    accepted(&folder);
    folder.write("x.aut", "des (0, 1, 2)\n(0, a?, 1)\n");
    outdated(
        &folder,
        "x.aut has changed since x.hex was built from it. Rebuild it with 'seipolku from-aut x.aut",
    );
    follow(&folder, &["check", "x.hex"]);
    assert_eq!(folder.run(&["compare", "x.hex", "y.hex"]).status, 1);
}

/// An .aut file that the model names.
#[test]
fn parts() {
    let folder = built();
    folder.write("part.aut", "des (0, 0, 1)\n");
    folder
        .write("x.model", "leaf one from \"part.aut\"\nleaf two from \"./part.aut\"\nx = compose one two\n");
    folder.done(&["build", "x.model"]);
    folder.done(&["compare", "x.hex", "x.hex"]);
    folder.write("part.aut", "des (0, 1, 1)\n(0, i, 0)\n");
    outdated(
        &folder,
        "part.aut has changed since x.hex was built from it. Rebuild it with 'seipolku build x.model",
    );
    accepted_without(&folder, "x.model");
    accepted_without(&folder, "part.aut");
}

/// The text is accepted while a file that it was built from is away.
fn accepted_without(folder: &Folder, source: &str) {
    let (here, away) = (folder.0.join(source), folder.0.join("away"));
    fs::rename(&here, &away).unwrap();
    folder.done(&["show", "x.hex"]);
    assert!(folder.run(&["check", "x.hex"]).err.contains("which is not there"));
    fs::rename(&away, &here).unwrap();
}

/// A source that is gone or was moved tells nothing; `check` says so.
#[test]
fn gone_and_moved() {
    let folder = built();
    fs::remove_file(folder.0.join("x.model")).unwrap();
    accepted(&folder);
    let ran = folder.run(&["check", "x.hex"]);
    assert_eq!(
        ran.err,
        "note: x.hex was built from x.model, which is not there; whether it has changed can't be told.\n"
    );
    let folder = built();
    fs::create_dir(folder.0.join("elsewhere")).unwrap();
    for file in ["x.hex", "x.names"] {
        fs::rename(folder.0.join(file), folder.0.join("elsewhere").join(file)).unwrap();
    }
    folder.write("x.model", OTHER);
    folder.done(&["show", "elsewhere/x.hex"]);
    assert!(folder
        .run(&["check", "elsewhere/x.hex"])
        .err
        .contains("built from elsewhere/x.model, which is not there"));
    // Everything moved together still knows its source.
    fs::rename(folder.0.join("x.model"), folder.0.join("elsewhere/x.model")).unwrap();
    let ran = folder.run(&["show", "elsewhere/x.hex"]);
    assert!(ran.err.contains("Rebuild it with 'seipolku build elsewhere/x.model'"), "{}", ran.err);
}

#[test]
fn in_another_folder() {
    let folder = built();
    fs::create_dir_all(folder.0.join("out/deep")).unwrap();
    folder.done(&["build", "x.model", "--into", "out/deep"]);
    assert!(folder.read("out/deep/x.names").contains("source model \"../../x.model\" "));
    folder.done(&["show", "out/deep/x.hex"]);
    folder.write("x.model", OTHER);
    let expected = "Rebuild it with 'seipolku build x.model --into out/deep'";
    let ran = folder.run(&["show", "out/deep/x.hex"]);
    assert!(ran.status == 3 && ran.err.contains(expected), "{}", ran.err);
    follow(&folder, &["show", "out/deep/x.hex"]);
    folder.done(&["show", "out/deep/x.hex"]);
}

#[test]
fn other_names_of_the_files() {
    let folder = built();
    for ending in ["hex", "names"] {
        fs::rename(folder.0.join(format!("x.{ending}")), folder.0.join(format!("z.{ending}"))).unwrap();
    }
    folder.write("x.model", OTHER);
    let ran = folder.run(&["show", "z.hex"]);
    assert!(ran.err.contains("Rebuild it with 'seipolku build x.model', which writes x.hex;"), "{}", ran.err);
    folder.write("a $b.model", MODEL);
    folder.done(&["build", "a $b.model"]);
    folder.write("a $b.model", OTHER);
    let ran = folder.run(&["show", "a $b.hex"]);
    assert!(ran.err.contains("Rebuild it with 'seipolku build \"a \\$b.model\"'"), "{}", ran.err);
}

/// A path that a name table can't hold.
#[test]
fn unwritable_paths() {
    let folder = Folder::new();
    folder.write("a\tb.model", MODEL);
    let ran = folder.run(&["build", "a\tb.model"]);
    assert_eq!(ran.status, 0);
    assert!(
        ran.err.starts_with("note: the path of a\tb.model can't be written into a name table"),
        "{}",
        ran.err
    );
    folder.write("a\tb.model", OTHER);
    folder.done(&["show", "a\tb.hex"]);
}

/// What the tutorial says of a repair in place.
#[test]
fn as_the_tutorial_says() {
    let folder = Folder::new();
    fs::create_dir(folder.0.join("examples")).unwrap();
    for name in ["journal_faulty.aut", "journal_flushed.aut", "service.aut"] {
        fs::copy(top().join("examples").join(name), folder.0.join("examples").join(name)).unwrap();
    }
    folder.done(&["from-aut", "examples/journal_faulty.aut", "examples/service.aut"]);
    folder.write("examples/journal_faulty.aut", folder.read("examples/journal_flushed.aut"));
    let said = folder.run(&["compare", "examples/journal_faulty.hex", "examples/service.hex"]).err;
    let tutorial = fs::read_to_string(top().join("docs/TUTORIAL.md")).unwrap();
    assert!(tutorial.contains(&format!("\n    {said}")), "{said}");
}

/// Tables without a record, as models/ has them, are taken as they are.
#[test]
fn without_a_record() {
    let folder = built();
    folder.write("x.names", "channel 1 a\n");
    folder.write("x.model", OTHER);
    folder.done(&["show", "x.hex"]);
}
