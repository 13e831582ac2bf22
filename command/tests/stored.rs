//! Outputs of the command on the shipped examples, compared with the files in tests/expected. With SEIPOLKU_WRITE_EXPECTED set, the
//! files are written anew.

mod common;

use common::{run, top, Folder, Ran};
use std::fs;
use std::path::Path;

const SHUTTLE: &str = "models/shuttle_one.hex";
const SERVICE: &str = "models/shuttle_one_service.hex";
const HANDLER: &str = "models/lotos_handler_no_calls.hex";
const CALLER: &str = "models/lotos_caller.hex";
const CELLS9: &str = "models/shuttle9_cells.hex";
const CELLS16: &str = "models/shuttle16_cells.hex";
const CELLS4: &str = "models/shuttle4_cells.hex";
/// With itself: strong equal after 2 rounds, weak after 3.
const CHAIN: &str = "models/buffer_chain2.hex";

/// Each run by the name of its stored file.
const RUNS: &[(&str, &[&str])] = &[
    ("compare_faulty", &["compare", "models/shuttle_one_faulty.hex", "models/shuttle_one_service.hex"]),
    ("compare_right", &["compare", SHUTTLE, SERVICE]),
    ("compare_weak", &["compare", SHUTTLE, SERVICE, "--mode", "weak"]),
    ("compare_json", &["compare", "models/abp.hex", "models/abp_service.hex", "--json"]),
    ("compare_small_table", &["compare", "models/abp.hex", "models/abp_service.hex", "--nodes", "4096"]),
    ("compare_too_large", &["compare", "models/philosophers3.hex", "models/philosophers3_ordered.hex"]),
    (
        "compare_too_large_for_two",
        &["compare", "models/philosophers3.hex", "models/philosophers3_ordered.hex", "--limit", "2"],
    ),
    ("compare_too_large_for_one", &["compare", CELLS16, "models/shuttle16_service.hex", "--limit", "1"]),
    ("compare_too_large_for_any", &["compare", CELLS16, "models/shuttle16_service.hex", "--mode", "strong"]),
    ("compare_too_large_for_nine", &["compare", CELLS9, "models/shuttle9_service.hex", "--limit", "9"]),
    ("compare_too_large_for_weak", &["compare", CELLS9, "models/shuttle9_service.hex", "--mode", "weak"]),
    ("compare_too_large_for_seven", &["compare", CELLS4, "models/shuttle4_cells_faulty.hex", "--limit", "7"]),
    ("pairs_too_large", &["pairs", CELLS9, "models/shuttle9_service.hex"]),
    ("compare_table_of_one", &["compare", "models/abp.hex", "models/abp_service.hex", "--nodes", "1"]),
    (
        "compare_limit",
        &["compare", "models/shuttle1.hex", "models/shuttle1_service.hex", "--mode=weak", "--limit=2"],
    ),
    ("compare_just_fits", &["compare", SHUTTLE, SERVICE, "--nodes", "2475"]),
    ("compare_one_entry_short", &["compare", SHUTTLE, SERVICE, "--nodes", "2474", "--mode", "strong"]),
    ("compare_relations_fill", &["compare", SHUTTLE, SERVICE, "--nodes", "323"]),
    ("compare_relations_fill_json", &["compare", SHUTTLE, SERVICE, "--nodes", "322", "--json"]),
    ("compare_answers_fill", &["compare", SHUTTLE, SERVICE, "--nodes", "324"]),
    ("compare_answers_fill_quiet", &["compare", SHUTTLE, SERVICE, "--nodes", "1425", "--quiet"]),
    ("compare_answers_fill_json", &["compare", SHUTTLE, SERVICE, "--nodes=1425", "--json", "--mode=weak"]),
    ("compare_one_node_left", &["compare", SHUTTLE, SERVICE, "--nodes", "1426", "--mode", "weak"]),
    ("compare_table_of_two", &["compare", SHUTTLE, SERVICE, "--nodes", "2"]),
    ("pairs_answers_fill", &["pairs", SHUTTLE, SERVICE, "--nodes", "1425"]),
    ("compare_one_entry_short_json", &["compare", SHUTTLE, SERVICE, "--nodes", "2474", "--json"]),
    ("compare_weak_undecided", &["compare", SHUTTLE, SERVICE, "--limit", "1"]),
    ("compare_weak_undecided_strong", &["compare", SHUTTLE, SERVICE, "--limit", "1", "--mode", "strong"]),
    ("compare_strong_undecided", &["compare", HANDLER, CALLER, "--limit", "3"]),
    ("compare_strong_undecided_json", &["compare", HANDLER, CALLER, "--limit", "3", "--json"]),
    ("compare_weak_follows", &["compare", CHAIN, CHAIN, "--limit", "2"]),
    ("compare_weak_follows_quiet", &["compare", CHAIN, CHAIN, "--limit", "2", "--json", "--quiet"]),
    ("pairs_weak_follows", &["pairs", CHAIN, CHAIN, "--limit", "2"]),
    ("compare_both_undecided", &["compare", SHUTTLE, SERVICE, "--limit", "0"]),
    ("pairs_undecided", &["pairs", HANDLER, CALLER, "--limit", "3", "--mode", "strong"]),
    ("pairs_one_entry_short", &["pairs", SHUTTLE, SERVICE, "--nodes", "2474"]),
    ("steps_too_many_nodes", &["steps", "models/shuttle16_cells.hex"]),
    ("compare_table_of_three", &["compare", "models/abp.hex", "models/abp_service.hex", "--nodes", "3"]),
    ("compare_other_names", &["compare", "models/shuttle_one.hex", "models/abp_service.hex"]),
    ("compare_by_number", &["compare", "models/shuttle_one.hex", "models/abp_service.hex", "--by-number"]),
    ("compare_json_error", &["compare", "models/shuttle_one.hex", "models/nothing.hex", "--json"]),
    ("pairs_by_number", &["pairs", "models/shuttle_one.hex", "models/abp_service.hex", "--by-number"]),
    ("pairs_right", &["pairs", SHUTTLE, SERVICE]),
    ("pairs_faulty", &["pairs", "models/shuttle_one_faulty.hex", "models/shuttle_one_service.hex"]),
    ("pairs_strong", &["pairs", "models/buffer_bag2.hex", "models/buffer_places2.hex", "--mode", "strong"]),
    ("pairs_reachable", &["pairs", "models/shuttle1.hex", "models/shuttle1_service.hex", "--reachable"]),
    ("steps", &["steps", "models/shuttle_one_faulty.hex"]),
    ("steps_all", &["steps", "models/shuttle_one.hex", "--all"]),
    ("steps_line", &["steps", "models/lotos_data_term_gate.hex", "--line", "2"]),
    ("steps_too_large", &["steps", "models/scheduler6.hex", "--most", "100"]),
    ("show_shuttle", &["show", "models/shuttle1_faulty.hex"]),
    ("show_lotos", &["show", "models/lotos_data_term_gate.hex"]),
    ("show_dot", &["show", "models/shuttle_one_faulty.hex", "--dot"]),
    ("show_dot_leaf", &["show", "models/shuttle_one.hex", "--dot", "--line", "0"]),
    ("check", &["check", "models/gas_closed_right.hex"]),
    ("check_names", &["check", "models/abp.names"]),
    ("check_readable", &["check", "examples/shuttle_faulty.model"]),
    ("check_aut", &["check", "examples/service.aut"]),
    ("to_aut_large", &["to-aut", "models/scheduler4.hex", "--out", "/dev/null"]),
    ("to_aut", &["to-aut", "models/shuttle_one.hex"]),
    ("to_aut_gates", &["to-aut", "models/lotos_connect.hex", "--tau"]),
    ("build_text", &["build", "--text", "models/shuttle1.hex"]),
    ("compare_exit", &["compare", "models/shuttle_last.hex", "models/shuttle_last_service.hex"]),
    (
        "compare_exit_alone",
        &["compare", "models/shuttle_last_composed.hex", "models/shuttle_last_service.hex"],
    ),
    ("steps_exit", &["steps", "models/shuttle_last.hex"]),
    ("show_exit", &["show", "models/shuttle_last.hex"]),
    ("show_exit_alone", &["show", "models/shuttle_last_composed.hex"]),
    ("show_dot_exit", &["show", "models/shuttle_last.hex", "--dot"]),
    ("build_text_exit", &["build", "--text", "models/shuttle_last.hex"]),
    ("no_subcommand", &[]),
    ("no_such_file", &["check", "models/nothing.hex"]),
    ("no_such_option", &["compare", "--fast", "a", "b"]),
];

#[test]
fn outputs() {
    for (name, words) in RUNS {
        compare(name, &run(words));
    }
}

/// The examples with enable and disable, each run by the name of its stored file.
const SEQUENCING: &[(&str, &[&str])] = &[
    ("build_sequencing", &["build", "startup.model", "stop.model", "stop_late.model", "stop_service.model"]),
    ("show_enable", &["show", "startup.hex"]),
    ("steps_enable", &["steps", "startup.hex"]),
    ("show_disable", &["show", "stop.hex"]),
    ("show_dot_disable", &["show", "stop.hex", "--dot"]),
    ("steps_disable", &["steps", "stop.hex"]),
    ("steps_disable_all", &["steps", "stop.hex", "--all"]),
    ("check_disable", &["check", "stop.hex"]),
    ("to_aut_disable", &["to-aut", "stop.hex"]),
    ("build_text_disable", &["build", "--text", "stop.hex"]),
    ("compare_disable", &["compare", "stop.hex", "stop_service.hex"]),
    ("compare_stop_late", &["compare", "stop_late.hex", "stop_service.hex"]),
    ("pairs_disable", &["pairs", "stop.hex", "stop_service.hex"]),
];

#[test]
fn outputs_of_enable_and_disable() {
    let folder = Folder::new();
    for name in ["startup", "stop", "stop_late", "stop_service"].map(|name| format!("{name}.model")) {
        fs::copy(top().join("examples").join(&name), folder.0.join(&name)).expect("a copy");
    }
    for (name, words) in SEQUENCING {
        compare(name, &folder.run(words));
    }
}

#[test]
fn helps() {
    for command in ["compare", "pairs", "steps", "show", "check", "from-aut", "to-aut", "build"] {
        let ran = run(&[command, "--help"]);
        assert_eq!(ran.status, 0);
        assert!(ran.out.contains("Example"), "{command}: no example");
        assert!(ran.out.contains(&format!("seipolku {command} ")), "{command}");
        assert_eq!(ran.out, run(&["help", command]).out);
        if ["steps", "show", "to-aut"].contains(&command) {
            assert!(
                ran.out.contains("10,000,000") && ran.out.contains("Exit status: 0 done; 2 "),
                "{command}"
            );
        }
    }
    assert_eq!(run(&["--help"]).status, 0);
}

/// Files that the library refuses, one for each number 1 to 6.
#[test]
fn refused_texts() {
    let texts: &[(&str, &str)] = &[
        ("refused_1_empty", ""),
        ("refused_1_letter", "000102000201\n01030a\n"),
        ("refused_1_odd", "000102000201\n010300012\n"),
        ("refused_1_end", "000102000201\n01030001"),
        ("refused_2", "000102000201\n\n"),
        ("refused_3", "000102000201\n02030001\n"),
        ("refused_4_kind", "000102000201\n010A0001\n"),
        ("refused_4_length", "000102000201\n010200\n"),
        ("refused_4_enable", "000102000201\n0107000000\n"),
        ("refused_4_disable", "000102000201\n010800\n"),
        ("refused_5_state", "000102000202\n"),
        ("refused_5_action", "000102000101\n"),
        ("refused_5_channel", "000102000201\n01030020\n"),
        ("refused_5_operand", "000102000201\n01030101\n"),
        ("refused_5_second", "000102000201\n01080001\n"),
        ("refused_5_action_63", "000102003E01003F01\n"),
        ("refused_5_channel_31", "000102003E01\n010600001E1F\n"),
        ("refused_5_relabelling_31", "000102003E01\n010400011F\n"),
        ("refused_6", "000140\n01020000\n02020101\n030102\n04020203\n"),
        ("refused_6_enable", "000140\n01020000\n02070101\n"),
        ("refused_6_disable", "000140\n01020000\n020120\n03020002\n04080103\n05XX\n"),
        ("refused_aut", "des (0, 0, 1)\n"),
    ];
    for (name, text) in texts {
        judged(name, text, 2);
    }
}

/// Texts that have all the bits that a model may have, also with added ones.
#[test]
fn largest_texts() {
    judged("accepted_24_bits", "000140\n01020000\n02020101\n", 0);
    judged("accepted_24_bits_added", "000140\n010120\n02020001\n03080202\n", 0);
}

/// A text alone and on each side.
fn judged(name: &str, text: &str, status: i32) {
    let folder = Folder::new();
    folder.write("model.hex", text);
    folder.write("good.hex", "000101\n");
    let mut all = String::new();
    let runs: [&[&str]; 4] = [
        &["check", "model.hex"],
        &["compare", "model.hex", "good.hex"],
        &["compare", "good.hex", "model.hex"],
        &["show", "model.hex"],
    ];
    for words in runs {
        let ran = folder.run(words);
        assert_eq!(ran.status, status, "{name} {words:?}");
        all += &format!("$ {}\n{}{}", words.join(" "), ran.out, ran.err);
    }
    compare(name, &Ran { out: all, err: String::new(), status });
}

fn compare(name: &str, ran: &Ran) {
    let file = Path::new(env!("CARGO_MANIFEST_DIR")).join("tests/expected").join(format!("{name}.txt"));
    let found = without_times(&format!("{}{}status {}\n", ran.out, ran.err, ran.status));
    if std::env::var_os("SEIPOLKU_WRITE_EXPECTED").is_some() {
        fs::write(&file, &found).expect("the stored file is written");
    }
    let expected = fs::read_to_string(&file).unwrap_or_default();
    assert_eq!(found, expected, "{name}: SEIPOLKU_WRITE_EXPECTED=1 stores the new output");
}

/// Puts TIME for each number of seconds, the only thing that changes between runs.
fn without_times(text: &str) -> String {
    let mut lines = Vec::new();
    for line in text.lines() {
        let mut line = line.to_string();
        if let Some((before, seconds)) =
            line.rsplit_once(", ").filter(|(_, s)| s.ends_with(" s") && s.contains('.'))
        {
            if seconds.trim_end_matches(" s").parse::<f64>().is_ok() {
                line = format!("{before}, TIME s");
            }
        }
        let parts: Vec<&str> = line.split("\"seconds\": ").collect();
        let timeless: Vec<&str> = parts
            .iter()
            .skip(1)
            .map(|p| p.trim_start_matches(|c: char| c.is_ascii_digit() || c == '.'))
            .collect();
        lines.push(std::iter::once(parts[0]).chain(timeless).collect::<Vec<_>>().join("\"seconds\": TIME"));
    }
    lines.join("\n") + "\n"
}
