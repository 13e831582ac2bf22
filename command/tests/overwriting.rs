//! No subcommand writes over a file that it reads, by whatever path it is named.

mod common;

use common::Folder;
use std::fs;
use std::os::unix::fs::symlink;

const MODEL: &str = "channels a\nleaf x\n  s -- out a --> t\n";

fn folder() -> Folder {
    let folder = Folder::new();
    folder.write("x.model", MODEL);
    folder.write("x.aut", "des (0, 1, 2)\n(0, a!, 1)\n");
    folder.done(&["build", "x.model"]);
    fs::create_dir(folder.0.join("sub")).unwrap();
    folder
}

/// Everything in the folder, by name.
fn contents(folder: &Folder) -> Vec<(String, Vec<u8>)> {
    let mut all: Vec<(String, Vec<u8>)> = fs::read_dir(&folder.0)
        .unwrap()
        .map(|entry| entry.unwrap())
        .filter(|entry| entry.path().is_file())
        .map(|entry| (entry.file_name().to_string_lossy().into_owned(), fs::read(entry.path()).unwrap()))
        .collect();
    all.sort();
    all
}

/// The command is refused with a sentence, and no file is changed or added.
fn keeps(folder: &Folder, words: &[&str], expected: &str) {
    let before = contents(folder);
    let ran = folder.run(words);
    assert_eq!((ran.status, &ran.out[..]), (3, ""), "{words:?}: {}", ran.err);
    assert!(ran.err.contains(expected), "{words:?}: {}", ran.err);
    assert!(contents(folder) == before, "{words:?} changed a file");
}

#[test]
fn a_text_and_what_belongs_to_it() {
    let folder = folder();
    symlink("x.hex", folder.0.join("link")).unwrap();
    fs::hard_link(folder.0.join("x.hex"), folder.0.join("second")).unwrap();
    for command in [&["to-aut"][..], &["build", "--text"]] {
        for target in
            ["x.hex", "./x.hex", "sub/../x.hex", "link", "second", "x.names", "./x.names", "x.model"]
        {
            let words = [command, &["x.hex", "--out", target]].concat();
            keeps(&folder, &words, &format!("{target} would be overwritten, and "));
        }
        keeps(
            &folder,
            &[command, &["link", "--out", "x.hex"]].concat(),
            "x.hex would be overwritten, and as link it is read here",
        );
        folder.done(&[command, &["x.hex", "--out", "new"]].concat());
        folder.done(&[command, &["x.hex", "--out", "new"]].concat());
        fs::remove_file(folder.0.join("new")).unwrap();
    }
    folder.done(&["to-aut", "x.hex", "--out", "/dev/null"]);
    // A source that is gone can be had again.
    fs::remove_file(folder.0.join("x.model")).unwrap();
    folder.done(&["build", "--text", "x.hex", "--out", "x.model"]);
    let before = folder.read("x.hex");
    folder.done(&["build", "x.model"]);
    assert_eq!(folder.read("x.hex"), before);
}

#[test]
fn sources_and_tables() {
    let folder = folder();
    let expected = "would be overwritten, and it is read here; write into another folder with --into";
    keeps(&folder, &["build", "x.model", "--names", "x.names"], expected);
    keeps(
        &folder,
        &["build", "x.model", "--names", "./x.names"],
        "x.names would be overwritten, and as ./x.names it is read",
    );
    keeps(&folder, &["from-aut", "x.aut", "--names", "x.names"], expected);
    folder.done(&["build", "x.model", "--names", "x.names", "--into", "sub"]);
    for (name, other) in [("y.names", "y.hex"), ("y.hex", "y.names")] {
        folder.write("part.model", format!("leaf x from \"{name}\"\n"));
        folder.write(name, "des (0, 0, 1)\n");
        fs::rename(folder.0.join("part.model"), folder.0.join("y.model")).unwrap();
        keeps(&folder, &["build", "y.model"], &format!("{name} would be overwritten"));
        keeps(&folder, &["from-aut", name], &format!("{name} would be overwritten"));
        keeps(&folder, &["from-aut", &format!("./{name}")], &format!("{name} would be overwritten"));
        assert!(!folder.0.join(other).exists());
        fs::remove_file(folder.0.join(name)).unwrap();
    }
    symlink("x.model", folder.0.join("z.hex")).unwrap();
    folder.write("z.model", MODEL);
    keeps(
        &folder,
        &["build", "z.model", "x.model"],
        "z.hex would be overwritten, and as x.model it is read here",
    );
}

#[test]
fn one_file_for_two() {
    let folder = folder();
    folder.write("sub/x.model", MODEL);
    let expected = "two of the files would both become";
    keeps(&folder, &["build", "x.model", "sub/x.model", "--into", "."], expected);
    keeps(&folder, &["build", "x.model", "./x.model"], expected);
    folder.write("y.model", MODEL);
    keeps(&folder, &["build", "y.model", "sub/../y.model"], expected);
    symlink("y.names", folder.0.join("y.hex")).unwrap();
    folder.write("y.names", "");
    keeps(&folder, &["build", "y.model"], expected);
}
