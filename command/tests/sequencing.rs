//! Enable and disable in every form and in every listing.

mod common;

use common::{top, Folder};
use std::fs;

/// A start-up that ends, a run that goes on, and a stop.
const PARTS: &str = "\
gates home, move, halt
leaf startup
  off -- home --> homed
  homed -- exit --> ready
leaf run
  idle -- move --> idle
leaf stop
  armed -- halt --> stopped
";

/// A folder with a model of these parts and the given definitions.
fn built(definitions: &str) -> Folder {
    let folder = Folder::new();
    folder.write("m.model", format!("{PARTS}{definitions}\n"));
    folder.done(&["build", "m.model"]);
    folder
}

#[test]
fn to_texts_and_back() {
    let folder = built("started = enable startup then run\nwhole = disable started by stop");
    assert_eq!(folder.read("m.hex"), "000103000201013E02\n010101000400\n020102000601\n03070001\n04080302\n");
    let again = folder.done(&["build", "--text", "m.hex"]);
    let last = "started = enable startup then run\nwhole = disable started by stop\n";
    assert!(again.ends_with(last), "{again}");
    folder.write("n.model", again);
    folder.done(&["build", "n.model"]);
    assert_eq!(folder.read("n.hex"), folder.read("m.hex"));
}

/// Three or more go from the left, over lines without a name.
#[test]
fn chains() {
    let folder = built("whole = enable startup then startup then run");
    assert!(folder.read("m.hex").ends_with("03070000\n04070301\n"));
    let again = folder.done(&["build", "--text", "m.hex"]);
    assert!(again.ends_with("p3 = enable startup then startup\nwhole = enable p3 then run\n"), "{again}");
    let folder = built("whole = disable run by stop by startup by run");
    assert!(folder.read("m.hex").ends_with("03080102\n04080300\n05080401\n"));
    folder.done(&["build", "--text", "m.hex", "--out", "n.model"]);
    folder.done(&["build", "n.model"]);
    assert_eq!(folder.read("n.hex"), folder.read("m.hex"));
}

/// The words of the form are names where a name is due.
#[test]
fn processes_with_the_names_of_words() {
    let folder = Folder::new();
    folder.write(
        "m.model",
        "leaf then\n  then -- exit --> by\nleaf by\n  states enable\nenable = enable then then by\n\
         disable = disable by by by\n\">>\" = enable \"then\" then enable\n",
    );
    folder.done(&["build", "m.model"]);
    assert_eq!(folder.read("m.hex"), "000102003E01\n010101\n02070001\n03080101\n04070002\n");
    folder.done(&["build", "--text", "m.hex", "--out", "n.model"]);
    assert!(folder.read("n.model").ends_with("\">>\" = enable then then enable\n"));
    folder.done(&["build", "n.model"]);
    assert_eq!(folder.read("n.hex"), folder.read("m.hex"));
}

/// A state is written by the leaves that are alive: those of the first, then those of the second.
#[test]
fn steps_of_an_enabling() {
    let folder = built("whole = enable startup then run");
    let reached = "\
startup=off
  -- home --> startup=homed
startup=homed
  -- tau --> run=idle
run=idle
  -- move --> run=idle
";
    assert_eq!(folder.done(&["steps", "m.hex"]), format!("3 reachable states, 3 steps\n{reached}"));
    let all = "\
startup=off
  -- home --> startup=homed
run=idle
  -- move --> run=idle
startup=homed
  -- tau --> run=idle
startup=ready
";
    assert_eq!(folder.done(&["steps", "m.hex", "--all"]), format!("4 states, 3 steps\n{all}"));
}

/// Both are alive until the second steps or the first exits.
#[test]
fn steps_of_a_disabling() {
    let folder = built("whole = disable startup by stop");
    let expected = "\
4 reachable states, 4 steps
startup=off stop=armed
  -- home --> startup=homed stop=armed
  -- halt --> stop=stopped
startup=homed stop=armed
  -- halt --> stop=stopped
  -- exit --> startup=ready
stop=stopped
startup=ready
";
    assert_eq!(folder.done(&["steps", "m.hex"]), expected);
    let all = folder.done(&["steps", "m.hex", "--all"]);
    assert!(all.starts_with("8 states, 8 steps\n"), "{all}");
    for state in ["startup=ready stop=armed\n  -- halt", "stop=armed\n  -- halt", "startup=off\n  -- home"] {
        assert!(all.contains(&format!("\n{state} --> ")), "{all}");
    }
}

/// The uses of one leaf are counted over both operands, alive or not.
#[test]
fn uses_of_one_leaf() {
    let folder = built("twice = enable startup then startup\nwhole = compose twice startup");
    let steps = folder.done(&["steps", "m.hex"]);
    let words = "startup#1=homed startup#3=off\n";
    assert!(steps.contains(words) && steps.contains("  -- tau --> startup#2=off startup#3=off\n"), "{steps}");
    assert!(!steps.contains("startup#1=off startup#2"), "{steps}");
}

#[test]
fn sizes() {
    let folder = built("started = enable startup then run\nwhole = disable started by stop");
    let size = "5 lines, 3 leaf lines, 3 leaf uses, 6 bits (3 added), 10 states";
    assert_eq!(folder.done(&["check", "m.hex"]), format!("m.hex: accepted: {size}.\n"));
    assert!(folder.done(&["show", "m.hex"]).starts_with(&format!("m.hex: {size}\n")));
    let part = folder.done(&["show", "m.hex", "--line", "3"]);
    assert!(
        part.starts_with("m.hex: 4 lines, 3 leaf lines, 2 leaf uses, 3 bits (1 added), 4 states\n"),
        "{part}"
    );
    assert!(folder.done(&["build", "m.model"]).ends_with(&format!(": {size}\n")));
}

#[test]
fn in_words() {
    let folder = built("started = enable startup then run\nwhole = disable started by stop");
    let words = folder.done(&["show", "m.hex"]);
    for line in [
        "line 3, started: startup enables run: startup alone; its exit becomes tau and starts run\n",
        "line 4, whole: started disabled by stop: either may step; the first step of stop drops started\n",
        "the model: (startup >> run) [> stop\n",
    ] {
        assert!(words.contains(line), "{words}");
    }
    let folder = built("p = enable run then stop\nq = disable startup by stop\nwhole = joint p q");
    let words = folder.done(&["show", "m.hex"]);
    for line in [
        "run enables stop: run alone; it never exits, so that stop never starts\n",
        "the first step of stop drops startup, and an exit of startup, which stays visible, drops stop\n",
        "the model: (run >> stop) |[]| (startup [> stop)\n",
    ] {
        assert!(words.contains(line), "{words}");
    }
}

/// A second that never starts has no exit, nor anything that waits for it.
#[test]
fn never_started_in_words() {
    let folder = built(
        "y = joint startup run\nz = enable y then startup\nu = enable z then run\nv = disable u by stop\n\
         w = disable z by startup\nwhole = compose v w",
    );
    let words = folder.done(&["show", "m.hex"]);
    for line in [
        "line 4, z: y enables startup: y alone; it never exits, so that startup never starts\n",
        "line 5, u: z enables run: z alone; it never exits, so that run never starts\n",
        "line 6, v: u disabled by stop: either may step; the first step of stop drops u\n",
        "line 7, w: z disabled by startup: either may step; the first step of startup drops z\n",
        "together, as tau; each side exits alone\n",
    ] {
        assert!(words.contains(line), "{words}");
    }
}

/// One process as both operands.
#[test]
fn twice_in_words() {
    let folder = built("p = enable startup then startup\nwhole = disable p by p");
    let words = folder.done(&["show", "m.hex"]);
    for line in [
        "startup enables startup: the first one alone; its exit becomes tau and starts the second one\n",
        "p disabled by p: either may step; the first step of the second one drops the first one, and an exit of the first one, which",
    ] {
        assert!(words.contains(line), "{words}");
    }
}

/// Each leaf that is alive on its line.
#[test]
fn in_pictures_and_aut_files() {
    let folder = built("whole = disable startup by stop");
    let picture = folder.done(&["show", "m.hex", "--dot"]);
    for line in [
        "s0 [label=\"startup=off\\nstop=armed\"];",
        "s2 [label=\"stop=stopped\"];",
        "s1 -> s3 [label=\"exit\"];",
    ] {
        assert!(picture.contains(line), "{picture}");
    }
    let aut = "des (0, 4, 4)\n(0, \"halt\", 2)\n(0, \"home\", 1)\n(1, \"halt\", 2)\n(1, exit, 3)\n";
    assert_eq!(folder.done(&["to-aut", "m.hex", "--out", "again.aut"]), "wrote again.aut\n");
    assert_eq!(folder.read("again.aut"), aut);
    folder.done(&["from-aut", "again.aut", "--names", "m.names"]);
    let verdict = folder.done(&["compare", "m.hex", "again.hex"]);
    assert!(verdict.contains("strong  equal") && !verdict.contains("by number"), "{verdict}");
    let enabling = built("whole = enable startup then run");
    assert_eq!(
        enabling.done(&["to-aut", "m.hex"]),
        "des (0, 3, 3)\n(0, \"home\", 1)\n(1, i, 2)\n(2, \"move\", 2)\n"
    );
}

/// All states count, also those that no step leads to, and no other codes.
#[test]
fn pairs() {
    let folder = built("whole = enable startup then run");
    let expected = "\
strong equal, 4 pairs in the largest bisimulation
startup=off  ~  startup=off
run=idle  ~  run=idle
startup=homed  ~  startup=homed
startup=ready  ~  startup=ready
";
    assert_eq!(folder.done(&["pairs", "m.hex", "m.hex", "--mode", "strong"]), expected);
}

/// An enabling exits where both operands may, a disabling where one of them may; both have the actions of their operands.
#[test]
fn actions_of_a_line() {
    for (operator, exits) in [
        ("enable startup then run", false),
        ("disable startup by run", true),
        ("disable run by startup", true),
        ("enable run then startup", false),
        ("enable startup then startup", true),
    ] {
        let folder = built(&format!("p = {operator}\nq = compose p run"));
        let said = folder.done(&["show", "m.hex"]).contains("; each side exits alone");
        assert_eq!(said, exits, "{operator}");
    }
    for operator in ["enable x then y", "enable y then x", "disable x by y", "disable y by x"] {
        let text = "000102000301\n010101\n";
        let folder = Folder::new();
        let (line, ends) = operator.split_once(' ').unwrap();
        let kind = if line == "enable" { "07" } else { "08" };
        let operands = if ends.starts_with('x') { "0001" } else { "0100" };
        folder.write("m.hex", format!("{text}02{kind}{operands}\n"));
        folder.write("m.names", "gate 1 a\n");
        let ran = folder.run(&["show", "m.hex"]);
        assert!(ran.status == 3 && ran.err.contains("a gate has no inputs"), "{operator}: {}", ran.err);
    }
}

/// A definition with too many bits: its line, and where the bits come from.
#[test]
fn too_many_bits() {
    let states: String = (0..64).map(|n| format!("s{n} ")).collect();
    let leaf = format!("leaf a\n  states {states}\nb = compose a a\n");
    let rule = "refusal 6: a line's process has at most 24 bits of state and 64 uses of leaves.";
    let folder = Folder::new();
    for (definition, line, size) in [
        ("c = enable b then b", 4, "25 bits of state (12 and 12 of its operands, 1 that enable adds)"),
        ("c = disable b by b", 4, "26 bits of state (12 and 12 of its operands, 2 that disable adds)"),
        ("c = compose b b\nd = compose c b", 5, "36 bits of state (24 and 12 of its operands)"),
    ] {
        folder.write("m.model", format!("{leaf}{definition}\n"));
        let ran = folder.run(&["build", "m.model"]);
        assert_eq!(ran.status, 2, "{}", ran.err);
        let (uses, fewer) = match line {
            4 => (4, ", or fewer enables and disables, in this process: enable adds one bit and disable two"),
            _ => (6, " in this process"),
        };
        let expected = format!(
            "m.model, line {line}, column 1: {rule} This process has {size} and {uses} leaf uses. Use fewer or smaller leaves{fewer}.\n"
        );
        assert!(ran.err.ends_with(&expected), "{}", ran.err);
    }
}

/// The tutorial's shuttles: the right ones are what was bought, the wrong ones are not.
#[test]
fn examples() {
    let folder = Folder::new();
    let names = ["startup", "startup_composed", "startup_service", "stop", "stop_late", "stop_service"];
    for name in names.map(|name| format!("{name}.model")) {
        fs::copy(top().join("examples").join(&name), folder.0.join(&name)).unwrap();
    }
    folder.done(&["build", "startup.model", "startup_composed.model", "startup_service.model"]);
    folder.done(&["build", "stop.model", "stop_late.model", "stop_service.model"]);
    for (left, right, status) in [
        ("startup.hex", "startup_service.hex", 0),
        ("startup_composed.hex", "startup_service.hex", 1),
        ("stop.hex", "stop_service.hex", 0),
        ("stop_late.hex", "stop_service.hex", 1),
        ("stop_late.hex", "stop.hex", 1),
    ] {
        assert_eq!(
            folder.run(&["compare", left, right, "--mode", "weak", "--quiet"]).status,
            status,
            "{left}"
        );
        assert_eq!(folder.run(&["compare", left, right, "--mode", "strong", "--quiet"]).status, 1, "{left}");
        assert_eq!(folder.run(&["pairs", left, right]).status, status, "{left}");
    }
}

/// Every use of the largest bits that a disabling may have is answered or refused with a sentence.
#[test]
fn as_large_as_can_be() {
    let folder = Folder::new();
    folder.write("fits.hex", "000140\n010120\n02020001\n03080202\n");
    folder.write("more.hex", "000140\n01020000\n02080100\n03080200\n");
    folder.write("idle.hex", "000101\n");
    let size = "4 lines, 2 leaf lines, 4 leaf uses, 24 bits (2 added), 6,144 states";
    assert_eq!(folder.done(&["check", "fits.hex"]), format!("fits.hex: accepted: {size}.\n"));
    assert!(folder
        .done(&["steps", "fits.hex", "--all", "--most", "6144"])
        .starts_with("6,144 states, 0 steps\n"));
    assert!(folder.done(&["pairs", "fits.hex", "idle.hex"]).starts_with("weak equal, 6,144 pairs in"));
    let ran = folder.run(&["check", "more.hex"]);
    assert!(
        ran.status == 2 && ran.out.contains("line 4, column 1: refusal 6, line 3 of the model"),
        "{}",
        ran.out
    );
}
