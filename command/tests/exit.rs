//! The termination event, exit, in every form and in every listing.

mod common;

use common::{Folder, Ran};

/// A leaf with states called exit and steps by exit, in a process called exit.
const CALLED_EXIT: &str = "\
channels out, in
leaf exit
  exit -- exit --> exit
  exit -- exit --> tau
  tau -- out in --> exit
  tau -- in out --> tau
exit' = joint exit exit on out
exit'' = relabel exit' out to in
";

#[test]
fn only_channels_are_not_called_exit() {
    let folder = Folder::new();
    folder.write("m.model", CALLED_EXIT);
    folder.done(&["build", "m.model"]);
    assert_eq!(folder.read("m.hex"), "000102003E00003E01010400010301\n0106000001\n0204010102\n");
    folder.done(&["build", "--text", "m.hex", "--out", "n.model"]);
    assert!(folder.read("n.model").contains("\n  exit -- exit --> exit\n  exit -- exit --> tau\n"));
    folder.done(&["build", "n.model"]);
    assert_eq!(folder.read("n.hex"), folder.read("m.hex"));
    let names = |file: &str| folder.read(file).lines().skip(3).map(str::to_string).collect::<Vec<_>>();
    assert_eq!(names("n.names"), names("m.names"));
    let steps = folder.done(&["steps", "m.hex", "--line", "0"]);
    assert!(steps.contains("exit=exit\n  -- exit --> exit=exit\n  -- exit --> exit=tau\n"), "{steps}");
}

/// Two phases that end, beside each other: joined, and composed.
fn phases() -> Folder {
    let folder = Folder::new();
    for operator in ["joint", "compose"] {
        let text = format!(
            "gates a, b\nleaf one\n  s -- a --> t\n  t -- exit --> u\nleaf two\n  s -- b --> t\n  t -- exit --> u\n\
             both = {operator} one two\n"
        );
        folder.write(&format!("{operator}.model"), text);
    }
    folder.done(&["build", "joint.model", "compose.model"]);
    folder
}

#[test]
fn joint_exits_together() {
    let folder = phases();
    let expected = "\
5 reachable states, 5 steps
one=s two=s
  -- a --> one=t two=s
  -- b --> one=s two=t
one=t two=s
  -- b --> one=t two=t
one=s two=t
  -- a --> one=t two=t
one=t two=t
  -- exit --> one=u two=u
one=u two=u
";
    assert_eq!(folder.done(&["steps", "joint.hex"]), expected);
}

#[test]
fn compose_lets_exit_pass() {
    let folder = phases();
    let steps = folder.done(&["steps", "compose.hex"]);
    assert!(steps.starts_with("9 reachable states, 12 steps\n"), "{steps}");
    let early = "one=t two=s\n  -- b --> one=t two=t\n  -- exit --> one=u two=s\n";
    let apart = "one=t two=t\n  -- exit --> one=u two=t\n  -- exit --> one=t two=u\n";
    assert!(steps.contains(early) && steps.contains(apart), "{steps}");
    assert!(!steps.contains("tau"), "{steps}");
}

#[test]
fn in_words() {
    let folder = phases();
    let joined = "one and two joined: on no channel both take the same step together, and they exit only together; else either side alone\n";
    assert!(folder.done(&["show", "joint.hex"]).contains(joined));
    let composed = "one and two composed: either side alone, or an output and an input on one channel together, as tau; each side exits alone\n";
    let words = folder.done(&["show", "compose.hex"]);
    assert!(words.contains(composed) && words.contains("channels: 1 a, 2 b\n"), "{words}");
    assert!(words.contains("  t -- exit --> u\n"), "{words}");
    // No exit in the leaf; and none of the joint, whose second side never exits.
    for text in ["000102000201\n01020000\n", "000102003E01\n010101\n02060001\n03020202\n"] {
        folder.write("met.hex", text);
        assert!(folder.done(&["show", "met.hex"]).contains("together, as tau\n"));
    }
}

#[test]
fn in_pictures_and_aut_files() {
    let folder = phases();
    let picture = folder.done(&["show", "joint.hex", "--dot"]);
    assert!(picture.contains(" [label=\"exit\"];\n") && !picture.contains("c31"), "{picture}");
    folder.done(&["to-aut", "joint.hex", "--out", "again.aut"]);
    assert!(folder.read("again.aut").ends_with("\n(3, exit, 4)\n"), "{}", folder.read("again.aut"));
    folder.done(&["from-aut", "again.aut", "--names", "joint.names"]);
    let verdict = folder.done(&["compare", "joint.hex", "again.hex"]);
    assert!(verdict.contains("strong  equal") && !verdict.contains("by number"), "{verdict}");
}

/// The label with and without quotes, and labels that only start with the word.
#[test]
fn labels() {
    let folder = Folder::new();
    folder.write(
        "m.aut",
        "des (0, 4, 2)\n(0, exit, 1)\n(0, \"exit\", 0)\n(1, \" exit \", 1)\n(1, \"exit door\", 0)\n",
    );
    folder.done(&["from-aut", "m.aut"]);
    assert_eq!(folder.read("m.hex"), "000102003E01003E00013E01010200\n");
    assert!(folder.read("m.names").contains("\ngate 1 \"exit door\"\n"));
    let written = "des (0, 4, 2)\n(0, exit, 0)\n(0, exit, 1)\n(1, \"exit door\", 0)\n(1, exit, 1)\n";
    assert_eq!(folder.done(&["to-aut", "m.hex"]), written);
}

/// Exit needs no name: a table that names all other channels leaves nothing out.
#[test]
fn never_lacking_in_a_table() {
    let folder = Folder::new();
    for (name, table) in [("left", "gate 1 a\n"), ("right", "gate 1 a\n")] {
        folder.write(&format!("{name}.hex"), "000103000201013E02\n");
        folder.write(&format!("{name}.names"), table);
    }
    let Ran { out, err, status } = folder.run(&["compare", "left.hex", "right.hex", "--json"]);
    assert!(out.contains("\"channels\": \"by name\"") && out.contains("\"notes\": []"), "{out}");
    assert_eq!((err.as_str(), status), ("", 0));
}

/// 30 names get 30 numbers, and c31 is a name like any other.
#[test]
fn thirty_channels() {
    let folder = Folder::new();
    let names: String = (2..=30).map(|n| format!(" c{n}")).collect();
    folder.write(
        "m.model",
        format!("channels c31{names}\nleaf a\n  s -- out c31 --> t\n  t -- in c30 --> s\n"),
    );
    folder.done(&["build", "m.model"]);
    assert_eq!(folder.read("m.hex"), "000102000201013D00\n");
    assert!(folder.read("m.names").contains("\nchannel 1 c31\n"));
}
