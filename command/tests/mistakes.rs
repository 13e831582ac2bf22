//! Mistakes in files and words: the sentence names file, line and column.

mod common;

use common::Folder;

fn says(name: &str, text: &str, words: &[&str], expected: &str) {
    let folder = Folder::new();
    folder.write(name, text);
    let ran = folder.run(words);
    let refused = expected.contains("refusal");
    assert_eq!(ran.status, if refused { 2 } else { 3 }, "{text}");
    assert!(ran.err.contains(expected), "{text}\nsaid: {}\nnot: {expected}", ran.err);
}

#[test]
fn readable_form() {
    let says = |text: &str, expected: &str| {
        says("m.model", text, &["build", "m.model"], &format!("m.model, {expected}"))
    };
    says("", "line 1, column 1: the file defines no process");
    says("leaf a\n", "line 1, column 6: this leaf has no state");
    says("channels\n", "line 1, column 9: the name of a channel is due");
    says("channels a = 32\n", "line 1, column 14: a channel's number from 1 to 30 is due");
    says("channels a = 3, b = 3\nleaf x\n states s\n", "line 1, column 17: channel 3 is 'a' already");
    says("gates a\nchannels a\nleaf x\n states s\n", "line 2, column 10: 'a' stands with a direction");
    says("s -- tau --> t\n", "line 1, column 1: states and steps belong below a 'leaf NAME' line");
    says("leaf a\n  s -- out b --> t\n", "line 2, column 12: 'b' is not declared");
    says("channels b\nleaf a\n  s -- b --> t\n", "line 3, column 8: 'b' is a channel; write 'out' or 'in'");
    says("leaf a\n  states s\n  s -- tau --> t\n", "line 3, column 16: 't' is no state of the leaf 'a'");
    says("leaf a\n  states s, s\n", "line 2, column 13: the state 's' stands here twice");
    says("leaf a\n  s -- tau -> t\n", "line 2, column 12: '-' has no meaning here");
    says("leaf a\n  s -- tau t\n", "line 2, column 8: an action is tau");
    says("leaf a\n  s -- tau --> \"t\n", "line 2, column 16: this quote is not closed");
    says("leaf a\n  states s\nb = compose a\n", "line 3, column 14: the name of a process is due");
    says("leaf a\n  states s\nb = compose a c\n", "line 3, column 15: there is no process 'c' above");
    says("leaf a\n  states s\nb = mix a a\n", "line 3, column 5: the operators are");
    says("leaf a\n  states s\na = compose a a\n", "line 3, column 1: there is a process 'a' above already");
    says("leaf a\n  states s\nb = hide a on\n", "line 3, column 14: a channel after 'on'");
    says("leaf a\n  states s\nb = hide a c\n", "line 3, column 12: 'on' is due here");
    says("channels x\nleaf a\n  states s\nb = relabel a x x\n", "line 4, column 17: 'to' is due here");
    says("leaf a\n  states s extra\nleaf b c\n", "line 3, column 8: the line is complete");
    says("what is this\n", "line 1, column 1: a line is");
    says("leaf a from \"b.aut\"\n", "line 1, column 13: b.aut can't be read");
    says(
        "gates a\nleaf x\n  s -- in a --> s\n",
        "line 3, column 11: 'a' is a gate, and a gate has no inputs",
    );
    says(
        "gates a\nchannels b\nleaf x\n  s -- in b --> s\ny = relabel x b to a\n",
        "line 5, column 1: in 'y' the gate 'a' gets inputs by relabelling",
    );
    says(
        "channels \"a \"\nleaf x\n  states s\n",
        "line 1, column 10: a channel's name can't start or end with a space",
    );
    says("gates tau\nleaf x\n  states s\n", "line 1, column 7: a gate can't have the name i or tau");
    says("gates \"?a\"\nleaf x\n  states s\n", "line 1, column 7: a gate can't have the name i or tau");
}

#[test]
fn marks_and_line_ends() {
    let folder = Folder::new();
    folder.write("m.model", "\u{feff}leaf a\r\n  states s\r\n");
    folder.write("n.aut", "\u{feff}des (0,0,1)\r\n\r\n");
    folder.done(&["build", "m.model"]);
    folder.done(&["from-aut", "n.aut"]);
    assert_eq!(
        (folder.read("m.hex"), folder.read("n.hex")),
        ("000101\n".to_string(), "000101\n".to_string())
    );
    folder.write("latin.model", b"leaf a\n  states caf\xe9\n");
    let ran = folder.run(&["build", "latin.model"]);
    assert!(ran.err.contains("latin.model, line 2, column 13: this byte is not UTF-8"), "{}", ran.err);
}

#[test]
fn sizes() {
    let says = |text: &str, expected: &str| says("m.model", text, &["build", "m.model"], expected);
    let chain: String = (0..65).map(|n| format!("  s{n} -- tau --> s{}\n", n + 1)).collect();
    says(&format!("leaf a\n{chain}"), "line 65, column 18: 's64' is one state too many");
    says(
        &format!("leaf a\n{}", "  s -- tau --> s\n".repeat(85)),
        "line 86, column 3: the leaf 'a' has 85 steps",
    );
    let channels: String = (0..32).map(|n| format!("channels c{n}\n")).collect();
    says(&channels, "the file defines no process");
    says(
        &format!("{channels}leaf a\n  states s\n"),
        "line 31, column 10: 'c30' is one channel too many: there are at most 30.",
    );
    let leaves: String = (0..65).map(|n| format!("leaf a{n}\n  states s\n")).collect();
    let lines = "this definition makes line 64, but a model has 64 lines, 0 to 63; use fewer definitions, or fewer operands: each one \
                 after the second makes a line, and so does each change of a relabel after the first.";
    says(&leaves, &format!("line 129, column 6: {lines}"));
    for (operator, word) in [("compose", ""), ("enable", "then"), ("disable", "by")] {
        let operands = vec!["a"; 70].join(&format!(" {word} "));
        says(
            &format!("leaf a\n  states s\nb = {operator} {operands}\n"),
            &format!("line 3, column 1: {lines}"),
        );
    }
    let states: String = (0..64).map(|n| format!("s{n} ")).collect();
    let large = format!("leaf a\n  states {states}\nb = compose a a\nc = compose b b a\n");
    says(&large, "line 4, column 1: refusal 6");
}

#[test]
fn aut_files() {
    let says = |text: &str, expected: &str| {
        says("m.aut", text, &["from-aut", "m.aut"], &format!("m.aut, {expected}"))
    };
    says("", "line 1, column 1: the file is empty");
    says("0 1 2\n", "line 1, column 1: an .aut file starts with 'des");
    says("des (0, 1)\n", "line 1, column 6: an .aut file starts with");
    says("des (0, x, 1)\n", "line 1, column 9: 'x' is not a whole number");
    says("des (0, 2, 1)\n(0, i, 0)\n", "line 1, column 8: the header says TRANSITIONS = 2, and 1 follow");
    says("des (1, 0, 1)\n", "line 1, column 1: the first state is 1");
    says("des (0, 1, 1)\n0 i 0\n", "line 2, column 1: a transition is");
    says("des (0, 1, 1)\n(0, i)\n", "line 2, column 2: a transition is");
    says("des (0, 1, 1)\n(0, i, 1)\n", "line 2, column 8: there is no state 1");
    says("des (0, 1, 1)\n(0, \"a, 0)\n", "line 2, column 5: the label's quote is not closed");
    says("des (0, 1, 1)\n(0, !, 0)\n", "line 2, column 5: the label has a direction but no name");
    says("des (0, 1, 1)\n(0, , 0)\n", "line 2, column 4: the label is empty");
    says("des (0, 0, 65)\n", "line 1, column 1: the .aut file has 65 states");
    says(
        "des (0, 2, 1)\n(0, a, 0)\n(0, a!, 0)\n",
        "line 3, column 5: 'a' stands with a direction in one place",
    );
}

/// The 31st name, in one file and beside a table that names 30 channels.
#[test]
fn too_many_names() {
    let labels = |count: usize| {
        let lines: String = (0..count).map(|n| format!("(0, g{n}, 0)\n")).collect();
        format!("des (0, {count}, 1)\n{lines}")
    };
    let too_many = "'g30' is one channel too many: there are at most 30. Use fewer names, or build fewer files together.";
    says("m.aut", &labels(31), &["from-aut", "m.aut"], &format!("m.aut, line 32, column 5: {too_many}"));
    let folder = Folder::new();
    folder.write("m.aut", labels(30));
    folder.done(&["from-aut", "m.aut"]);
    folder.write("n.aut", "des (0, 2, 1)\n(0, exit, 0)\n(0, g30, 0)\n");
    let ran = folder.run(&["from-aut", "n.aut", "--names", "m.names"]);
    assert!(
        ran.status == 3 && ran.err.contains(&format!("n.aut, line 3, column 5: {too_many}")),
        "{}",
        ran.err
    );
}

#[test]
fn name_tables() {
    let says = |text: &str, expected: &str| {
        let folder = Folder::new();
        folder.write("m.hex", "000102000201\n");
        folder.write("m.names", text);
        let ran = folder.run(&["show", "m.hex"]);
        assert_eq!(ran.status, 3, "{text}");
        assert!(ran.err.contains(&format!("m.names, {expected}")), "{text}: {}", ran.err);
        assert_eq!(folder.run(&["check", "m.hex"]).status, 0);
    };
    says("chanel 1 a\n", "line 1, column 1: a line of a name table is");
    says("channel 0 a\n", "line 1, column 9: channels have the numbers 1 to 30");
    says("gate 32 a\n", "line 1, column 6: channels have the numbers 1 to 30");
    says("channel 287 a\n", "line 1, column 9: channels have the numbers 1 to 30");
    says("channel x a\n", "line 1, column 9: a number is due");
    says("channel 1 a\nchannel 2 a\n", "line 2, column 1: this number or name stands above");
    says("process 1 a\n", "line 1, column 9: the model has no line 1");
    says("state 0 2 a\n", "line 1, column 7: line 0 of the model is no leaf with a state 2");
    says("text 00\n", "line 1, column 6: a digest of 64 hexadecimal digits is due");
    says("source text a.model 00\n", "line 1, column 8: the kind of a source is model or aut");
    says("channel 1 \" a\"\n", "line 1, column 11: a channel's name can't start or end with a space");
    says("gate 1 \"a!\"\n", "line 1, column 8: a gate can't have the name i or tau");
}

fn build_says(text: &str, expected: &str) {
    says("m.model", text, &["build", "m.model"], &format!("m.model, {expected}"));
}

#[test]
fn exit_declared() {
    let declared =
        "exit is the termination event, which is never declared; leave it out, or choose another name.";
    for line in [
        "channels exit",
        "channels \"exit\"",
        "channels exit = 7",
        "channels exit = 30, b",
        "gates a, exit",
        "gates a, \"exit\" = 7",
        "gates a, exit = 31",
    ] {
        build_says(&format!("{line}\nleaf a\n  states s\n"), &format!("line 1, column 10: {declared}"));
    }
    for name in ["exit !1", "exit!2"] {
        build_says(&format!("channels \"{name}\"\n"), &format!("line 1, column 10: {VALUED}"));
    }
    // an .aut file would have it as exit!!, which is a termination with values
    build_says("channels \"exit!\"\nleaf a\n  states s\n", &format!("line 1, column 10: {VALUED}"));
    let number = "31 is the termination event, exit, and no channel's number; write one from 1 to 30, or leave out the '='.";
    build_says("channels a = 31\n", &format!("line 1, column 14: {number}"));
}

#[test]
fn exit_in_lists_and_relabellings() {
    for (line, column) in [
        ("b = joint a a on exit", 18),
        ("b = joint a a on x, exit", 21),
        ("b = hide a on \"exit\"", 15),
        ("b = restrict a on x exit", 21),
        ("b = relabel a exit to x", 15),
        ("b = relabel a x to exit", 20),
        ("b = relabel a x to y, y to \"exit\"", 28),
    ] {
        let expected = format!(
            "line 4, column {column}: exit is the termination event and no channel: joint takes it on both sides together, and \
             no list or relabelling names it; leave it out."
        );
        build_says(&format!("channels x, y\nleaf a\n  states s\n{line}\n"), &expected);
    }
}

const DIRECTED: &str =
    "exit is the termination event and no channel, so it has no direction; write exit alone.";

#[test]
fn exit_in_steps() {
    let says = |act: &str, expected: &str| {
        build_says(&format!("leaf a\n  s -- {act} --> s\n"), &format!("line 2, column {expected}"))
    };
    says("out exit", &format!("12: {DIRECTED}"));
    says("in exit", &format!("11: {DIRECTED}"));
    says("out \"exit\"", &format!("12: {DIRECTED}"));
    says("\"exit\"", "8: exit is the termination event and no gate; write it without quotes.");
    says("\"exit !1\"", &format!("8: {VALUED}"));
    says("exit exit", "8: an action is tau, exit, out CHANNEL");
}

const VALUED: &str =
    "no model text can hold a termination with values (as in exit !1); write exit alone, or choose another name.";

#[test]
fn exit_in_aut_files() {
    let directed = ["exit!", "!exit", "exit?", "?exit", "\"exit!\"", "\"? exit\"", "exit !"];
    let valued = ["exit !1", "\"exit !1 !2\"", "exit!TRUE", "exit ?x"];
    let labels =
        directed.map(|label| (label, DIRECTED)).into_iter().chain(valued.map(|label| (label, VALUED)));
    for (label, sentence) in labels {
        let text = format!("des (0, 2, 2)\n(0, exit, 1)\n(0, {label}, 1)\n");
        says("m.aut", &text, &["from-aut", "m.aut"], &format!("m.aut, line 3, column 5: {sentence}"));
        let folder = Folder::new();
        folder.write("m.aut", text);
        folder.write("m.model", "leaf a from \"m.aut\"\n");
        let ran = folder.run(&["build", "m.model"]);
        let expected = format!("m.model, line 1, column 13: m.aut, line 3, column 5: {sentence}");
        assert!(ran.status == 3 && ran.err.contains(&expected), "{}", ran.err);
    }
}

#[test]
fn exit_in_name_tables() {
    let number = "31 is the termination event, which is always called exit; remove this line.";
    let named = "exit is the termination event, action 62, and no channel or gate has this name. If it is meant, build the text anew from \
                 its source; else choose another name.";
    let folder = Folder::new();
    folder.write("m.hex", "000102003E01\n");
    folder.write("n.aut", "des (0, 0, 1)\n");
    for (line, column, sentence) in [
        ("channel 31 a", 9, number),
        ("gate 31 a", 6, number),
        ("channel 31 exit", 9, number),
        ("channel 1 exit", 11, named),
        ("gate 1 \"exit\"", 8, named),
        ("channel 1 \"exit !1\"", 11, VALUED),
        ("channel 1 \"exit!\"", 11, VALUED),
    ] {
        folder.write("m.names", format!("{line}\n"));
        let expected = format!("m.names, line 1, column {column}: {sentence}");
        let runs = [&["show", "m.hex"][..], &["from-aut", "n.aut", "--names", "m.names"]];
        let ran = runs.map(|words| folder.run(words));
        assert!(ran.iter().all(|r| r.status == 3 && r.err.contains(&expected)), "{line}: {}", ran[0].err);
    }
}

/// The words of enable and disable, and the operators that LOTOS has for them.
#[test]
fn enable_and_disable() {
    let says = |line: &str, expected: &str| {
        build_says(&format!("leaf a\n  states s\n{line}\n"), &format!("line 3, column {expected}"))
    };
    let (then, by) = ("as in 'enable FIRST then SECOND'", "as in 'disable FIRST by SECOND'");
    let name = |form: &str| format!("the name of a process, {form}, is due here; write it.");
    says("b = enable", &format!("11: {}", name(then)));
    says("b = enable a", &format!("13: 'then' is due here, {then}; write it."));
    says("b = enable a a", &format!("14: 'then' is due here, {then}; write it."));
    says("b = enable a, a", &format!("13: 'then' is due here, {then}; write it."));
    says("b = enable a by a", &format!("14: 'then' is due here, {then}; write it."));
    says("b = enable a then", &format!("18: {}", name(then)));
    says("b = enable a \"then\" a", &format!("14: 'then' is due here, {then}; write it."));
    says("b = enable a then a then", &format!("25: {}", name(then)));
    let (one_more, list) = ("remove the rest, or write", "enable and disable have no list of channels");
    let complete = "the line is complete before this word";
    says("b = enable a then a by a", &format!("21: {complete}; {one_more} 'then' and one more process."));
    says("b = enable a then a a", &format!("21: {complete}; {one_more} 'then' and one more process."));
    says("b = enable a then a on x", &format!("21: {list}; {one_more} 'then' and one more process."));
    says("b = enable a then a then a on", &format!("28: {list}; {one_more} 'then' and one more process."));
    says("b = enable a on x", &format!("14: 'then' is due here, {then}; write it."));
    says("b = enable a then c", "19: there is no process 'c' above this line; define it before");
    says("b = enable b then a", "12: there is no process 'b' above this line; define it before");
    says("b = disable = a", &format!("13: {}", name(by)));
    says("b = disable a", &format!("14: 'by' is due here, {by}; write it."));
    says("b = disable a then a", &format!("15: 'by' is due here, {by}; write it."));
    says("b = disable a by", &format!("17: {}", name(by)));
    says("b = disable a by a on x", &format!("20: {list}; {one_more} 'by' and one more process."));
    says("b = disable a by a then a", &format!("20: {complete}; {one_more} 'by' and one more process."));
    says("enable a then a", "1: a line is 'channels ..'");
    says(
        "b = a then a",
        "5: the operators are compose, restrict, relabel, hide, joint, enable and disable; write one of these after '='.",
    );
}

/// Signs of operators in a definition, and elsewhere.
#[test]
fn signs_of_operators() {
    let says = |line: &str, expected: &str| {
        build_says(&format!("leaf a\n  states s\n{line}\n"), &format!("line 3, column {expected}"))
    };
    for (sign, words) in [
        (">>", "enable FIRST then SECOND"),
        ("[>", "disable FIRST by SECOND"),
        ("|||", "joint FIRST SECOND"),
        ("|[", "joint FIRST SECOND on CHANNELS"),
        ("||", "joint FIRST SECOND on CHANNELS"),
        ("|", "compose FIRST SECOND"),
    ] {
        let written = format!("'{sign}' has no meaning here; write 'NAME = {words}' for it.");
        says(&format!("b = a {sign} a"), &format!("7: {written}"));
        says(&format!("a {sign} a"), &format!("3: {written}"));
        let first = sign.chars().next().unwrap_or_default();
        let name = format!("'{first}' has no meaning here; put a name with such a character into quotes.");
        for line in ["s -- ", "s -- tau --> ", "channels x ", "leaf ", "states "] {
            says(&format!("{line}{sign}"), &format!("{}: {name}", line.len() + 1));
        }
    }
    says("b = a > a", "7: '>' has no meaning here; put a name");
    says("b = a [] a", "7: '[' has no meaning here; put a name");
    says("b = \"é\" >> a", "9: '>>' has no meaning here; write");
    says(">> a", "1: '>' has no meaning here; put a name");
}

/// An operator in the place of an operand.
#[test]
fn nested_operators() {
    let nested = "operators are not nested: an operand is the name of a process; define the inner process in a line of its own above, \
                  and name it here.";
    for (line, column) in [
        ("b = enable a then disable a by a", 19),
        ("b = enable a then (disable a by a)", 19),
        ("b = enable disable a by a then a", 12),
        ("b = enable (a) then a", 12),
        ("b = disable a by enable a then a", 18),
        ("b = disable a by enable", 18),
        ("b = disable a by a by joint a a on x", 23),
        ("b = compose a joint a a", 15),
        ("b = compose hide a on x, a", 13),
        ("b = restrict compose a a on x", 14),
        ("b = relabel hide a on x x to y", 13),
        ("b = joint a enable a then a", 13),
        ("b = (a >> a)", 5),
    ] {
        build_says(
            &format!("channels x, y\nleaf a\n  states s\n{line}\n"),
            &format!("line 4, column {column}: {nested}"),
        );
    }
    // a process or a channel that has an operator's name
    let says = |line: &str, expected: &str| {
        let above = "channels hide\nleaf a\n  states s\ndisable = compose a a\n";
        build_says(&format!("{above}{line}\n"), &format!("line 5, column {expected}"));
    };
    says("b = enable a then disable a", "27: the line is complete before this word");
    says("b = restrict a on hide =", "24: a channel after 'on'");
    says("s -- ( --> t", "6: '(' has no meaning here; put a name");
}

/// A gate of the table on which the model has inputs, in a leaf or by relabelling.
#[test]
fn gates_with_inputs() {
    for text in ["000102000301\n", "000102000501\n0104000201\n"] {
        let folder = Folder::new();
        folder.write("m.hex", text);
        folder.write("m.names", "# names\ngate 1 a\n");
        let ran = folder.run(&["to-aut", "m.hex"]);
        let expected = "m.names, line 2, column 1: a gate has no inputs, and the model has some on 1; write 'channel' for 'gate'.";
        assert!(ran.status == 3 && ran.err.contains(expected), "{}", ran.err);
        folder.write("m.names", "channel 1 a\n");
        folder.done(&["to-aut", "m.hex"]);
    }
}

#[test]
fn words() {
    let folder = Folder::new();
    folder.write("a.hex", "000102000201\n");
    folder.write("a.model", "leaf a\n  states s\n");
    folder.write("-odd.hex", "000102000201\n");
    let fails = |words: &[&str], expected: &str| {
        let ran = folder.run(words);
        assert_eq!(ran.status, 3, "{words:?}");
        assert!(ran.err.contains(expected), "{words:?}: {}", ran.err);
    };
    fails(&["steps", "a.hex", "--line", "1"], "has no line 1; its lines go from 0 to 0");
    fails(&["steps", "a.hex", "--most", "1", "--all"], "has 2 states, too many to list");
    fails(&["pairs", "a.hex", "a.hex", "--most", "3"], "4 pairs of states, too many to list");
    fails(&["pairs", "a.hex", "a.hex", "--mode", "both"], "--mode takes strong or weak");
    fails(&["compare", "a.hex", "a.hex", "--quiet=yes"], "--quiet takes no value");
    fails(
        &["compare", "a.hex", "a.hex", "--limit", "-1"],
        "--limit takes a whole number from 0 to 18,446,744",
    );
    fails(
        &["compare", "a.hex", "a.hex", "--nodes", "x"],
        "--nodes takes a whole number from 2 to 1,048,576,",
    );
    fails(
        &["pairs", "a.hex", "a.hex", "--nodes", "1e6"],
        "--nodes takes a whole number from 2 to 1,048,576,",
    );
    fails(&["steps", "a.hex", "--line", "last"], "--line takes a whole number from 0 to 63,");
    fails(&["build", "a.model", "--into", "nowhere"], "nowhere/a.hex can't be written");
    fails(&["build", "a.model", "--out", "b.hex"], "--out names the file of 'build --text'");
    fails(&["build", "a.hex"], "'seipolku build --text a.hex'");
    fails(&["build", "a.aut"], "'seipolku from-aut a.aut'");
    fails(
        &["build", "a.names"],
        "a.names is a name table by its ending; give the file of the readable form, such as a.model.",
    );
    fails(&["show", "-odd.hex"], "show has no option -odd.hex");
    fails(&["from-aut"], "from-aut takes one file or more");
    folder.done(&["show", "--", "-odd.hex"]);
    folder.done(&["compare", "a.hex", "a.hex", "--limit", "18446744073709551615"]);
}
