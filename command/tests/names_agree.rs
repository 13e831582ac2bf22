//! Channels are compared by number: models whose names mean something else are not compared without a word.

mod common;

use common::{run, Folder, Ran};

/// An unrelated pair that is weakly equal by number: a shuttle and a buffer.
const UNRELATED: [&str; 2] = ["models/shuttle_one.hex", "models/abp_service.hex"];

fn refused(ran: &Ran, expected: &str) {
    assert_eq!(ran.status, 3, "{}{}", ran.out, ran.err);
    assert_eq!(ran.out, "");
    for part in [expected, "Build both files together", "--by-number"] {
        assert!(ran.err.contains(part), "{part}: {}", ran.err);
    }
}

#[test]
fn other_names_are_refused() {
    let [left, right] = UNRELATED;
    let expected = "1 is 'move' on the left and 'accept' on the right";
    for words in
        [&["compare", left, right][..], &["compare", left, right, "--quiet"], &["pairs", left, right]]
    {
        refused(&run(words), expected);
    }
    refused(&run(&["compare", left, right, "--mode", "weak", "--quiet"]), expected);
    let ran = run(&["compare", left, right, "--json"]);
    assert_eq!((ran.status, &ran.err[..]), (3, ""));
    assert!(ran
        .out
        .starts_with("{\"error\": \"channels are compared by number, and the name tables disagree: 1 is"));
    assert!(ran.out.ends_with("\"answers\": [], \"notes\": [], \"status\": 3}\n"), "{}", ran.out);
    let both = run(&["compare", left, right, "--json", "--quiet"]);
    assert_eq!((both.status, &both.out), (3, &ran.out));
    assert!(both.err.contains(expected));
}

#[test]
fn by_number_says_so() {
    let [left, right] = UNRELATED;
    let note = "note: channels are compared by number, though the name tables disagree: 1 is 'move'";
    let ran = run(&["compare", left, right, "--by-number", "--mode", "weak"]);
    assert!(
        ran.out.starts_with("weak    equal      2 rounds, channels by number\nboth    2,473 nodes, "),
        "{}",
        ran.out
    );
    assert!(ran.err.starts_with(note) && ran.status == 0, "{}", ran.err);
    let quiet = run(&["compare", left, right, "--by-number", "--mode", "weak", "--quiet"]);
    assert!(quiet.out.is_empty() && quiet.err.starts_with(note) && quiet.status == 0, "{}", quiet.err);
    let json = run(&["compare", left, right, "--by-number", "--mode", "weak", "--json"]);
    assert!(json.out.contains("\"channels\": \"by number\"") && json.out.contains(note), "{}", json.out);
    assert!(json.err.is_empty() && json.status == 0);
    let pairs = run(&["pairs", left, right, "--by-number"]);
    assert!(pairs.out.starts_with("weak equal, channels by number, 6 pairs in"), "{}", pairs.out);
    assert!(pairs.err.starts_with(note) && pairs.status == 0, "{}", pairs.err);
    let different = run(&["pairs", left, right, "--by-number", "--mode", "strong"]);
    assert!(
        different.out.starts_with("strong different (1 round, channels by number): "),
        "{}",
        different.out
    );
    assert!(different.err.starts_with(note) && different.status == 1, "{}", different.err);
}

/// Two models of one step on channel 1 with name tables.
fn pair(left: Option<&str>, right: Option<&str>) -> Folder {
    let folder = Folder::new();
    for (name, table) in [("left", left), ("right", right)] {
        folder.write(&format!("{name}.hex"), "000102000201\n");
        if let Some(table) = table {
            folder.write(&format!("{name}.names"), table);
        }
    }
    folder
}

#[test]
fn gates_and_channels_are_apart() {
    let folder = pair(Some("gate 1 a\n"), Some("channel 1 a\n"));
    let expected = "'a' is a gate on the left and a channel with directions on the right";
    refused(&folder.run(&["compare", "left.hex", "right.hex"]), expected);
    refused(&folder.run(&["compare", "left.hex", "right.hex", "--quiet"]), expected);
    refused(&folder.run(&["pairs", "left.hex", "right.hex"]), expected);
    let other = "'a' is a channel with directions on the left and a gate on the right";
    refused(&folder.run(&["compare", "right.hex", "left.hex"]), other);
    assert!(folder.done(&["compare", "left.hex", "right.hex", "--by-number"]).contains("channels by number"));
}

#[test]
fn moved_names_are_refused() {
    let folder = pair(Some("channel 1 a\n"), Some("channel 1 b\nchannel 2 a\n"));
    let expected = "1 is 'a' on the left and 'b' on the right; 'a' is 1 on the left and 2 on the right";
    refused(&folder.run(&["compare", "left.hex", "right.hex"]), expected);
}

#[test]
fn without_names() {
    let said = |left, right, note: Option<&str>| {
        let folder = pair(left, right);
        let ran = folder.run(&["compare", "left.hex", "right.hex"]);
        assert_eq!(ran.status, 0, "{}", ran.err);
        assert_eq!(ran.out.matches(", channels by number\n").count(), if note.is_some() { 2 } else { 0 });
        let note = note.unwrap_or_default();
        assert_eq!(ran.err, note);
        let json = folder.done(&["compare", "left.hex", "right.hex", "--json"]);
        let named = left.is_some() && right.is_some() && note.is_empty();
        assert!(
            json.contains(&format!("\"channels\": \"by {}\"", if named { "name" } else { "number" })),
            "{json}"
        );
        assert_eq!(folder.run(&["compare", "left.hex", "right.hex", "--quiet"]).err, note);
        let pairs = folder.run(&["pairs", "left.hex", "right.hex"]);
        assert_eq!(
            (pairs.out.contains("equal, channels by number, "), &pairs.err[..]),
            (!note.is_empty(), note)
        );
    };
    let lacks = |side: &str| {
        Some(format!("note: {side}.hex does not name its channels, so they are compared by number.\n"))
    };
    let a = Some("channel 1 a\n");
    said(None, None, None);
    said(a, a, None);
    said(a, None, lacks("right").as_deref());
    said(None, a, lacks("left").as_deref());
    said(Some("process 0 x\n"), a, lacks("left").as_deref());
    said(
        Some("channel 2 b\n"),
        Some("channel 3 c\n"),
        Some(&(lacks("left").unwrap() + &lacks("right").unwrap())),
    );
}

/// A table that can't be read says nothing about the channels, so that nothing is compared.
#[test]
fn broken_tables() {
    let folder = pair(Some("chanel 1 a\n"), Some("channel 1 a\n"));
    for words in [&["compare"][..], &["compare", "--quiet"], &["compare", "--by-number"], &["pairs"]] {
        let ran = folder.run(&[words, &["left.hex", "right.hex"]].concat());
        assert_eq!((ran.status, &ran.out[..]), (3, ""), "{words:?}");
        assert!(ran.err.contains("left.names, line 1, column 1: a line of a name table is"), "{}", ran.err);
    }
}
