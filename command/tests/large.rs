//! Models at the limit of bits: every subcommand answers, or says at once what is too large and what to do.

mod common;

use common::{digits, Folder, Ran, Random};
use seipolku::{CODES, MAX_BITS};
use std::time::{Duration, Instant};

/// More than any of these runs takes on a slow machine, and far less than asking for every code.
const AT_ONCE: Duration = Duration::from_secs(20);

/// A leaf, used so many times: each further line puts it to the one before.
fn chain(leaf: &str, uses: u32, operator: &str, list: &str) -> String {
    let line = |number| format!("{number:02X}{operator}{:02X}00{list}\n", number - 1);
    format!("{leaf}\n{}", (1..uses).map(line).collect::<String>())
}

/// Two states that are taken in turn; all leaves step together.
fn joined(uses: u32) -> String {
    chain("000102000201010300", uses, "06", "01")
}

/// The same, where each leaf steps alone or two meet.
fn composed(uses: u32) -> String {
    chain("000102000201010300", uses, "02", "")
}

/// The same, where each leaf steps alone and none meet.
fn apart(uses: u32) -> String {
    chain("000102000201010300", uses, "06", "")
}

/// Leaves of 64 states in a ring, each alone.
fn rings(uses: u32) -> String {
    let ring: String = (0..64).map(|s| format!("{s:02X}02{:02X}", (s + 1) % 64)).collect();
    chain(&format!("000140{ring}"), uses, "02", "")
}

/// From the start each leaf goes to any of 64 states, all leaves together.
fn fans(uses: u32) -> String {
    let fan: String = (0..64).map(|s| format!("0002{s:02X}")).collect();
    chain(&format!("000140{fan}"), uses, "06", "01")
}

/// Leaves of 8 states with many steps that were drawn, composed: these alone need more nodes than the largest table holds.
fn tangled() -> String {
    let mut random = Random(8);
    let leaves = MAX_BITS as u8 / 3;
    let mut leaf = |number: u8| {
        let mut step = |_| [random.below(8) as u8, 2 + random.below(61) as u8, random.below(8) as u8];
        digits(&[vec![number, 1, 8], (0..84).flat_map(&mut step).collect()].concat()) + "\n"
    };
    let lines: String = (0..leaves).map(&mut leaf).collect();
    let both = |k: u8| digits(&[leaves + k - 1, 2, if k == 1 { 0 } else { leaves + k - 2 }, k]) + "\n";
    lines + &(1..leaves).map(both).collect::<String>()
}

fn folder() -> Folder {
    let folder = Folder::new();
    for bits in [20, 21, MAX_BITS, MAX_BITS + 1] {
        folder.write(&format!("joined{bits}.hex"), joined(bits));
        folder.write(&format!("composed{bits}.hex"), composed(bits));
        folder.write(&format!("apart{bits}.hex"), apart(bits));
    }
    folder.write("joined1.hex", joined(1));
    folder.write("rings.hex", rings(MAX_BITS / 6));
    folder.write("fans.hex", fans(MAX_BITS / 6));
    folder
}

/// A run that ends at once.
fn quick(folder: &Folder, words: &[&str]) -> Ran {
    let start = Instant::now();
    let ran = folder.run(words);
    assert!(start.elapsed() < AT_ONCE, "{words:?}: {:?}", start.elapsed());
    ran
}

/// A run that fails at once, with these words.
fn fails(folder: &Folder, words: &[&str], expected: &str) {
    let ran = quick(folder, words);
    assert_eq!((ran.status, ran.out.as_str()), (3, ""), "{words:?}: {}", ran.err);
    assert!(ran.err.contains(expected), "{words:?}: {}", ran.err);
}

#[test]
fn sizes() {
    let folder = folder();
    for (bits, states) in [(20, "1,048,576"), (21, "2,097,152"), (24, "16,777,216")] {
        let size = format!("{bits} lines, 1 leaf line, {bits} leaf uses, {bits} bits, {states} states");
        for file in ["joined", "composed", "apart"].map(|name| format!("{name}{bits}.hex")) {
            assert_eq!(folder.done(&["check", &file]), format!("{file}: accepted: {size}.\n"));
            assert!(folder.done(&["show", &file]).starts_with(&format!("{file}: {size}\n")));
        }
    }
    assert!(folder.done(&["check", "rings.hex"]).contains("4 leaf uses, 24 bits, 16,777,216 states."));
}

/// Only two states of the joined leaves can be reached, the one of code 0 and the one of the largest code.
#[test]
fn steps_of_joined_leaves() {
    let folder = folder();
    for bits in [20, 21, MAX_BITS] {
        let file = format!("joined{bits}.hex");
        let state = |s: u32| (1..=bits).map(|k| format!("p0#{k}={s}")).collect::<Vec<_>>().join(" ");
        let (zeros, ones) = (state(0), state(1));
        let steps = format!("{zeros}\n  -- out c1 --> {ones}\n{ones}\n  -- in c1 --> {zeros}\n");
        let expected = format!("2 reachable states, 2 steps\n{steps}");
        assert_eq!(quick(&folder, &["steps", &file]).out, expected);
        assert_eq!(
            quick(&folder, &["to-aut", &file]).out,
            "des (0, 2, 2)\n(0, \"c1!\", 1)\n(1, \"c1?\", 0)\n"
        );
        let picture = quick(&folder, &["show", &file, "--dot"]).out;
        assert!(
            picture.contains("  s0 -> s1 [label=\"c1!\"];\n  s1 -> s0 [label=\"c1?\"];\n}\n"),
            "{picture}"
        );
        let pairs = quick(&folder, &["pairs", &file, "joined1.hex", "--reachable"]).out;
        let head = "weak equal, 2 pairs of reachable states in the largest bisimulation\n";
        assert_eq!(pairs, format!("{head}{zeros}  ~  p0=0\n{ones}  ~  p0=1\n"));
    }
}

#[test]
fn verdicts() {
    let folder = folder();
    for bits in [20, 21, MAX_BITS] {
        let [joined, composed, apart] =
            ["joined", "composed", "apart"].map(|name| format!("{name}{bits}.hex"));
        let equal = quick(&folder, &["compare", &joined, "joined1.hex"]);
        assert_eq!(equal.status, 0, "{}", equal.out);
        assert!(
            equal.out.starts_with("strong  equal      2 rounds\nweak    equal      2 rounds\nboth    "),
            "{}",
            equal.out
        );
        let json = quick(&folder, &["compare", "joined1.hex", &apart, "--mode", "strong", "--json"]);
        assert!(json.out.contains("\"verdict\": \"different\", \"rounds\": 2"), "{}", json.out);
        assert_eq!(quick(&folder, &["compare", &composed, &composed]).status, 2);
    }
}

#[test]
fn too_large_to_list() {
    let folder = folder();
    let reachable =
        "has more than 1,000 reachable states, too many to list. Allow more with --most N, or take";
    let whatever = "has more than 10,000,000 states and steps, too many to list with any --most. Take a smaller part of the model with --line K.";
    for file in [&format!("apart{MAX_BITS}.hex"), "rings.hex", "fans.hex"] {
        for words in [&["steps", file][..], &["to-aut", file], &["show", file, "--dot"]] {
            fails(&folder, words, reachable);
        }
        fails(&folder, &["steps", file, "--all"], whatever);
        fails(&folder, &["steps", file, "--all", "--most", &CODES.to_string()], whatever);
    }
    fails(
        &folder,
        &["steps", "joined21.hex", "--all"],
        "has 2,097,152 states, too many to list. Allow more with --most N",
    );
    let pairs = "the models have 281,474,976,710,656 pairs of states, too many to list; the limit is ";
    let rings = ["pairs", "rings.hex", "rings.hex"];
    fails(&folder, &rings, &format!("{pairs}1,000,000. List the reachable ones with --reachable"));
    let advice = "make the models smaller: no --most allows more than 1,000,000,000.";
    fails(&folder, &[&rings[..], &["--most", "281474976710656"]].concat(), advice);
}

/// Weak steps are worked out with the steps, and where the leaves meet they may need more nodes than a table holds: the same leaves are
/// listed where they don't meet.
#[test]
fn too_many_weak_steps_to_list() {
    let folder = folder();
    for file in ["composed21.hex", "composed24.hex"] {
        for words in [&["steps", file][..], &["to-aut", file], &["show", file, "--dot"]] {
            let ran = quick(&folder, words);
            assert_eq!((ran.status, ran.out.as_str()), (2, ""), "{words:?}: {}", ran.err);
            let together = "the model's steps and weak steps are worked out together: the steps take ";
            assert!(ran.err.starts_with(&format!("seipolku: {file}: refusal 8: {together}")), "{}", ran.err);
            let filled =
                " nodes, and the weak steps fill the rest of a table of 1,048,576 entries; none is larger. ";
            assert!(ran.err.contains(filled), "{}", ran.err);
        }
    }
    assert!(folder.done(&["steps", "composed24.hex", "--line", "8"]).starts_with("512 reachable states, "));
    let ran = quick(&folder, &["steps", "apart24.hex", "--line", "8"]);
    assert!(ran.out.starts_with("512 reachable states, "), "{}", ran.err);
}

/// A listing asks for no round: the steps of this model fit into the table, and with the rounds of a comparison they do not.
#[test]
fn steps_without_rounds() {
    let folder = folder();
    let line = |number: u8| {
        let before = if number == 2 { 0 } else { number - 1 };
        digits(&[number, 2, before, u8::from(number > 9)]) + "\n"
    };
    let lines: String = (2..12).map(line).collect();
    folder.write("model.hex", format!("000103000201010302020400\n010102000401\n{lines}"));
    folder.write("idle.hex", "000101\n");
    fails(&folder, &["steps", "model.hex"], "model.hex has more than 1,000 reachable states");
    let ran = folder.run(&["compare", "model.hex", "idle.hex"]);
    assert!(ran.out.starts_with("both    refused    8, "), "{}", ran.out);
    assert!(ran.out.contains("The comparison itself does not fit into the rest, "), "{}", ran.out);
    let ran = quick(&folder, &["compare", "model.hex", "idle.hex", "--limit", "0"]);
    assert!(ran.out.contains("\nboth    1,025,032 nodes, "), "{}", ran.out);
}

/// One model whose steps no table holds, though a part of it can be listed.
#[test]
fn too_many_nodes_to_list() {
    let folder = Folder::new();
    folder.write("tangled.hex", tangled());
    let refusal = "tangled.hex: refusal 8: the model's steps fill a table of 1,048,576 entries, and none is larger. What to do: take a \
                   smaller part of the model with --line K.\n";
    for words in [&["steps"][..], &["steps", "--all"], &["to-aut"], &["show", "--dot"]] {
        let ran = quick(&folder, &[words, &["tangled.hex"]].concat());
        let expected = format!("seipolku: {refusal}");
        assert_eq!((ran.status, ran.out.as_str(), ran.err), (2, "", expected), "{words:?}");
    }
    let ran = quick(&folder, &["steps", "tangled.hex", "--line", "14"]);
    assert_eq!(ran.err, format!("seipolku: line 14 of {refusal}"));
    assert!(folder.done(&["steps", "tangled.hex", "--line", "8"]).starts_with("64 reachable states, "));
    let ran = quick(&folder, &["compare", "tangled.hex", "tangled.hex"]);
    assert!(
        ran.out.contains(" entries. The steps of the two models (the relations) fill the table, "),
        "{}",
        ran.out
    );
    assert!(ran.out.ends_with("and no limit helps: not one round fits.\n"), "{}", ran.out);
}

/// A verdict other than "equal" comes before any listing.
#[test]
fn pairs_compare_first() {
    let folder = folder();
    let [composed, apart] = ["composed", "apart"].map(|name| format!("{name}{MAX_BITS}.hex"));
    for reachable in [&[][..], &["--reachable"]] {
        for (mode, expected) in [("strong", "strong different ("), ("weak", "weak different (")] {
            let ran =
                quick(&folder, &[&["pairs", "joined1.hex", &apart, "--mode", mode], reachable].concat());
            assert_eq!((ran.status, ran.err.as_str()), (1, ""), "{}", ran.out);
            assert!(ran.out.starts_with(expected), "{}", ran.out);
        }
        let ran = quick(&folder, &[&["pairs", &composed, &composed], reachable].concat());
        assert_eq!((ran.status, ran.err.as_str()), (2, ""), "{}", ran.out);
        assert!(ran.out.starts_with("Refusal 8: "), "{}", ran.out);
    }
}

/// What is too large for `pairs`, and the advice that is true for it.
#[test]
fn too_many_pairs() {
    let folder = folder();
    let rings = ["pairs", "rings.hex", "rings.hex", "--reachable", "--most", "100"];
    let advice = "Allow more with --most N, or make the models smaller.\n";
    fails(
        &folder,
        &rings,
        &format!("rings.hex has more than 100 reachable states, too many to list. {advice}"),
    );
    let joined = format!("joined{MAX_BITS}.hex");
    let few = ["pairs", &joined, &joined, "--reachable", "--most", "3"];
    let limit = "too many to list; the limit is 3. Allow more with --most N.\n";
    fails(&folder, &few, &format!("the models have 4 pairs of reachable states, {limit}"));
    let all = ["pairs", &joined, &joined, "--most", &u64::MAX.to_string()];
    fails(&folder, &all, "the limit is 1,000,000,000. List the reachable ones with --reachable, or make the models smaller: no");
}

/// A part of a model that is too large, and a part of a listing that is not.
#[test]
fn parts_are_listed() {
    let folder = folder();
    fails(
        &folder,
        &["steps", "rings.hex", "--line", "2"],
        ": line 2 of rings.hex has more than 1,000 reachable states",
    );
    let ran = quick(&folder, &["steps", "rings.hex", "--line", "1", "--most", "4096"]);
    assert!(
        ran.out.starts_with("4,096 reachable states, 8,192 steps\n"),
        "{}",
        &ran.out[..ran.out.len().min(200)]
    );
    let ran = quick(&folder, &["steps", "fans.hex", "--line", "1", "--most", "4096"]);
    assert!(
        ran.out.starts_with("4,096 reachable states, 4,096 steps\n"),
        "{}",
        &ran.out[..ran.out.len().min(200)]
    );
}

/// Phases one after the other, in as many bits as fit: the states are few, and every listing has them at once.
#[test]
fn many_phases() {
    let folder = Folder::new();
    let phase = "000103000201013E02";
    folder.write("m.hex", chain(phase, 8, "07", ""));
    let size = "8 lines, 1 leaf line, 8 leaf uses, 23 bits (7 added), 24 states";
    assert_eq!(quick(&folder, &["check", "m.hex"]).out, format!("m.hex: accepted: {size}.\n"));
    let start = "p0#1=0\n  -- out c1 --> p0#1=1\np0#1=1\n  -- tau --> p0#2=0\n";
    let steps = quick(&folder, &["steps", "m.hex"]).out;
    assert!(steps.starts_with(&format!("17 reachable states, 16 steps\n{start}")), "{steps}");
    assert!(steps.ends_with("p0#8=1\n  -- exit --> p0#8=2\np0#8=2\n"), "{steps}");
    assert!(quick(&folder, &["steps", "m.hex", "--all"]).out.starts_with("24 states, 16 steps\n"));
    // Eight states on the way, each like no other, and four ends.
    folder.write("four.hex", chain(phase, 4, "07", ""));
    let pairs = quick(&folder, &["pairs", "four.hex", "four.hex", "--mode", "strong"]).out;
    assert!(pairs.starts_with("strong equal, 24 pairs in "), "{pairs}");
    let aut = quick(&folder, &["to-aut", "m.hex"]).out;
    assert!(aut.starts_with("des (0, 16, 17)\n") && aut.ends_with("\n(15, exit, 16)\n"), "{aut}");
    folder.write("more.hex", chain(phase, 9, "07", ""));
    let ran = folder.run(&["check", "more.hex"]);
    let words =
        "this process has 26 bits of state (23 and 2 of its operands, 1 that enable adds) and 9 leaf uses\n";
    assert!(ran.status == 2 && ran.out.contains(words), "{}", ran.out);
}

/// A part that is broken off by one after the other: with each the states are doubled.
#[test]
fn many_stops() {
    let folder = Folder::new();
    folder.write("m.hex", chain("000102000201", 8, "08", ""));
    let size = "8 lines, 1 leaf line, 8 leaf uses, 22 bits (14 added), 510 states";
    assert_eq!(quick(&folder, &["check", "m.hex"]).out, format!("m.hex: accepted: {size}.\n"));
    assert!(quick(&folder, &["steps", "m.hex", "--all"]).out.starts_with("510 states, "));
    let steps = quick(&folder, &["steps", "m.hex"]).out;
    assert!(steps.contains("\np0#8=1\n"), "{steps}");
    folder.write("n.hex", "000102000201\n");
    let verdict = quick(&folder, &["compare", "m.hex", "n.hex", "--mode", "weak"]);
    assert_eq!(verdict.status, 1, "{}", verdict.out);
    folder.write("more.hex", chain("000102000201", 9, "08", ""));
    assert_eq!(folder.run(&["check", "more.hex"]).status, 2);
}

#[test]
fn one_bit_more() {
    let folder = folder();
    let rule = "refusal 6, line 24 of the model (counted from 0): a line's process has at most 24 bits of state and 64 uses of leaves.";
    for file in ["joined25.hex", "composed25.hex", "apart25.hex"] {
        for command in [
            &["check"][..],
            &["show"],
            &["show", "--dot"],
            &["steps"],
            &["steps", "--all"],
            &["to-aut"],
            &["build", "--text"],
        ] {
            let ran = folder.run(&[command, &[file]].concat());
            assert_eq!(ran.status, 2, "{command:?}");
            assert!(
                format!("{}{}", ran.out, ran.err).contains(&format!("{file}, line 25, column 1: {rule}")),
                "{command:?}"
            );
        }
        assert_eq!(folder.run(&["pairs", file, "joined1.hex"]).status, 2);
        let json = folder.run(&["compare", "joined1.hex", file, "--json"]);
        assert!(json.out.contains("\"number\": 6, \"side\": \"right\", \"line\": 24"), "{}", json.out);
    }
}

/// The readable form: a journal as a chain of cells, to the last bit and beyond.
#[test]
fn readable_form() {
    let folder = Folder::new();
    let text = |cells: u32| {
        let cells = "cell ".repeat(cells as usize);
        format!("channels put, take\n\nleaf cell\n  empty -- in put --> full\n  full -- out take --> empty\n\njournal = compose {cells}\n")
    };
    folder.write("fits.model", text(MAX_BITS));
    let built = folder.done(&["build", "fits.model"]);
    assert!(
        built.ends_with(": 24 lines, 1 leaf line, 24 leaf uses, 24 bits, 16,777,216 states\n"),
        "{built}"
    );
    let again = folder.done(&["build", "--text", "fits.hex"]);
    folder.write("again.model", again);
    folder.done(&["build", "again.model"]);
    assert_eq!(folder.read("again.hex"), folder.read("fits.hex"));
    folder.write("more.model", text(MAX_BITS + 1));
    let ran = folder.run(&["build", "more.model"]);
    let refusal = "more.model, line 7, column 1: refusal 6: a line's process has at most 24 bits of state and 64 uses of leaves.";
    assert_eq!(ran.status, 2);
    assert!(ran.err.contains(refusal), "{}", ran.err);
}
