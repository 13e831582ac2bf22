//! Where the nodes went: a line for each stage, the object's numbers, and what is said of a full table.

mod common;

use common::{run, Folder, Ran};

const PAIR: [&str; 2] = ["models/shuttle_one.hex", "models/shuttle_one_service.hex"];

/// The nodes of this pair up to the relations, up to the weak answers, and of the whole list.
const NODES: [u64; 3] = [321, 1423, 2473];

const STAGES: [&str; 3] = ["relations", "weak answers", "comparison"];

const RELATIONS: &str =
    "The steps of the two models (the relations) fill the table, and no room is left to compare them.";
const ANSWERS: &str = "The steps of the two models (the relations) take 321 nodes. Their weak steps (the weak answers), with internal steps \
                       before and after, fill the rest, and no room is left to compare them.";

const LARGER: &str =
    "give --nodes a larger number, or leave it out, which gives the largest table, of 1,048,576 entries.";

fn call(command: &str, more: &[&str]) -> Ran {
    run(&[&[command, PAIR[0], PAIR[1]], more].concat())
}

/// The numbers of each stage's line in a comparison's output: its own nodes, those up to it, its share, and the bar.
fn table(out: &str) -> Vec<[String; 4]> {
    let stage = |name: &str| {
        let start = format!("        {name:<12}  ");
        let line = out.lines().find_map(|line| line.strip_prefix(&start)).expect("a line");
        let words: Vec<String> = line.split_whitespace().filter(|w| *w != "%").map(str::to_string).collect();
        let word = |index: usize| words.get(index).cloned().unwrap_or_default();
        [word(0), word(1), word(2), word(3)]
    };
    STAGES.iter().map(|name| stage(name)).collect()
}

fn number(written: &str) -> u64 {
    written.replace(',', "").parse().expect("a number")
}

/// A number below a million with its thousands apart.
fn written(number: u64) -> String {
    match number {
        0..=999 => number.to_string(),
        _ => format!("{},{:03}", number / 1000, number % 1000),
    }
}

fn counted(nodes: u64) -> String {
    format!("{} node{}", written(nodes), if nodes == 1 { "" } else { "s" })
}

/// The three numbers of an object.
fn up_to([relations, answers, whole]: [u64; 3]) -> String {
    format!("\"nodes_up_to\": {{\"relations\": {relations}, \"answers\": {answers}, \"whole\": {whole}}}, ")
}

#[test]
fn answered() {
    for mode in ["both", "strong", "weak"] {
        let ran = call("compare", &["--mode", mode]);
        assert!(ran.out.contains("\nboth    2,473 nodes, "), "{}", ran.out);
        let lines = table(&ran.out);
        let own = lines.iter().map(|line| number(&line[0])).collect::<Vec<_>>();
        let so_far = lines.iter().map(|line| number(&line[1])).collect::<Vec<_>>();
        assert_eq!((&own[..], &so_far[..]), (&[321, 1102, 1050][..], &NODES[..]), "{}", ran.out);
        let bars = lines.iter().map(|line| (&line[2][..], line[3].len())).collect::<Vec<_>>();
        assert_eq!(bars, [("13", 4), ("45", 12), ("42", 12)], "{}", ran.out);
        let json = call("compare", &["--mode", mode, "--json"]).out;
        assert!(json.contains(&format!("\"nodes\": 2473, {}", up_to(NODES))), "{json}");
    }
}

/// Beside 9 the numbers are those of the list up to the limit.
#[test]
fn beside_undecided_verdicts() {
    for (limit, whole) in [("0", 1423), ("1", 2066)] {
        let ran = call("compare", &["--limit", limit]);
        assert!(ran.out.contains("9, the limit is reached"), "{}", ran.out);
        assert_eq!(number(&table(&ran.out)[2][1]), whole, "{}", ran.out);
        let json = call("compare", &["--limit", limit, "--json"]).out;
        assert!(json.contains(&format!("\"nodes\": {whole}, {}", up_to([321, 1423, whole]))), "{json}");
    }
}

/// The sentence on what fills a table into which so many nodes fit, and how many stages have numbers.
fn filled(room: u64) -> (String, usize) {
    match room {
        0 => (String::new(), 0),
        1..=321 => (RELATIONS.to_string(), 1),
        322..=1423 => (ANSWERS.to_string(), 2),
        _ => {
            let rest = counted(room - 1423);
            let sentence = format!(
                "The steps and weak steps of the two models (the relations and the weak answers) take 1,423 nodes. The comparison itself does \
                 not fit into the rest, {rest}."
            );
            (sentence, 3)
        }
    }
}

/// Tables one below, at and above each of the three numbers, as far as they are too small: lines, sentence and object.
#[test]
fn full_tables() {
    for room in [0, 1, 320, 321, 322, 1422, 1423, 1424, 2472_u64] {
        let entries = (room + 2).to_string();
        let (sentence, stages) = filled(room);
        let ran = call("compare", &["--nodes", &entries]);
        assert_eq!(ran.status, 2);
        assert!(ran.out.starts_with("both    refused    8, the table is full, "), "{}", ran.out);
        for (index, line) in table(&ran.out).iter().enumerate() {
            match index < stages {
                true => {
                    assert_eq!(number(&line[1]), NODES[index].min(room), "{}", ran.out);
                    assert_eq!(line[3].ends_with('>'), index + 1 == stages, "{}", ran.out);
                }
                false => assert_eq!(line, &["-", "-", "-", ""], "{}", ran.out),
            }
        }
        let explained = ran.out.split_once("\n\n").expect("an explanation").1;
        let fit = if room == 1 { "fits" } else { "fit" };
        let fits = format!("\n  {} {fit} into {} entries.", counted(room), written(room + 2));
        let ends = if sentence.is_empty() { "\n".to_string() } else { format!(" {sentence}\n") };
        assert!(explained.contains(&(fits + &ends)), "{explained}");
        assert_eq!(call("pairs", &["--nodes", &entries]).out, explained);
        let quiet = call("compare", &["--nodes", &entries, "--quiet"]);
        assert_eq!((quiet.out.as_str(), quiet.err.as_str()), ("", explained));
        let json = call("compare", &["--nodes", &entries, "--json"]).out;
        let numbers = up_to(NODES.map(|number| number.min(room)));
        assert!(json.contains(&format!("\"nodes\": null, {numbers}")), "{json}");
    }
}

/// What helps with each stage, where a larger table can be had.
#[test]
fn advice() {
    for (entries, smaller) in [
        ("2", ""),
        ("323", " Or make the models smaller, with fewer leaves, or fewer states and steps in a leaf; or compare a part by itself."),
        ("1,425", " Or put leaves that communicate next to each other, and have fewer internal steps if there are any (tau in the leaves, hidden channels); or make the models smaller, with fewer leaves, or fewer states and steps in a leaf; or compare a part by itself."),
        ("2,474", " Or make the models smaller, with fewer leaves, or fewer states and steps in a leaf; or make the weak answers smaller, which leaves more room: put leaves that communicate next to each other, and have fewer internal steps if there are any (tau in the leaves, hidden channels); or compare a part by itself."),
    ] {
        let ran = call("compare", &["--nodes", entries]);
        assert!(ran.out.ends_with(&format!("\nWhat to do: {LARGER}{smaller}\n")), "{}", ran.out);
    }
}

/// Weak steps may fill a table where no step is internal, so that the advice is not of internal steps alone.
#[test]
fn no_internal_steps() {
    let files = ["models/joined24.hex", "models/joined1.hex"];
    let out = run(&["compare", files[0], files[1], "--nodes", "20,000"]).out;
    assert!(out.contains("fill the rest, ") && out.contains("internal steps if there are any"), "{out}");
    assert!(out.contains("; or make the models smaller, with fewer leaves, "), "{out}");
}

/// One entry below the greatest length, and at it.
#[test]
fn the_largest_table() {
    let compare = |entries: &str| {
        let files = ["models/shuttle16_cells.hex", "models/shuttle16_service.hex"];
        run(&["compare", files[0], files[1], "--nodes", entries]).out
    };
    let short = compare("1,048,575");
    assert!(short.contains(&format!("\nWhat to do: {LARGER} Or put ")), "{short}");
    let whole = compare("1,048,576");
    assert!(whole.contains("\nWhat to do: put ") && !whole.contains("--nodes"), "{whole}");
    assert!(whole.contains(". No table is larger than this one, "), "{whole}");
}

/// Refusals 1 to 7 tell of no nodes.
#[test]
fn other_refusals() {
    let folder = Folder::new();
    folder.write("good.hex", "000101\n");
    let too_large = "000140\n01020000\n02020101\n03020002\n";
    for (number, text) in (1..).zip(["00010\n", "00\n", "010101\n", "000901\n", "000141\n", too_large]) {
        folder.write("bad.hex", text);
        for files in [["bad.hex", "good.hex"], ["good.hex", "bad.hex"]] {
            without_nodes(number, |more| folder.run(&[&["compare", files[0], files[1]], more].concat()));
        }
    }
    without_nodes(7, |more| call("compare", &[&["--nodes", "1"], more].concat()));
}

fn without_nodes(number: u64, compare: impl Fn(&[&str]) -> Ran) {
    let out = compare(&[]).out;
    assert!(out.starts_with(&format!("both    refused    {number}, ")), "{out}");
    assert!(!out.contains("weak answers"), "{out}");
    let json = compare(&["--json"]).out;
    assert!(json.contains(&format!("\"number\": {number}, ")), "{json}");
    assert!(json.contains("\"nodes\": null, \"nodes_up_to\": null, "), "{json}");
}

/// In a pipe: no control characters, no colours, and no line of a table beyond a terminal's 80 columns.
#[test]
fn plain_lines() {
    let cells = ["models/shuttle16_cells.hex", "models/shuttle16_service.hex"];
    let compared = [
        run(&["compare", "models/scheduler6.hex", "models/scheduler6_order.hex"]),
        run(&["compare", cells[0], cells[1], "--limit", "1"]),
        run(&["compare", "models/philosophers3.hex", "models/philosophers3_ordered.hex", "--limit", "1"]),
        call("compare", &[]),
        call("compare", &["--nodes", "2"]),
    ];
    for Ran { out, .. } in compared {
        assert!(out.chars().all(|c| c == '\n' || (' '..='~').contains(&c)), "{out}");
        let first = out.lines().take_while(|line| !line.is_empty()).collect::<Vec<_>>();
        assert!(
            first.len() > 4 && first.iter().all(|line| line.len() < 80 && line.trim_end() == *line),
            "{out}"
        );
    }
}

/// A chain of ten cells, each of which gives its item to the next one, composed in an order.
fn chain(order: [usize; 10]) -> String {
    let channels = (0..=order.len()).map(|k| format!("link{k}")).collect::<Vec<_>>();
    let cell = |k: usize| {
        let steps = format!("  empty -- in link{k} --> full\n  full -- out link{} --> empty\n", k + 1);
        format!("leaf cell{k}\n{steps}")
    };
    format!(
        "channels {}\n{}cells = compose {}\nchain = restrict cells on {}\n",
        channels.join(", "),
        (0..order.len()).map(cell).collect::<String>(),
        order.map(|k| format!("cell{k}")).join(" "),
        channels[1..order.len()].join(", ")
    )
}

/// The tutorial's numbers: weak answers have fewer nodes where leaves that communicate are next to each other.
#[test]
fn order_of_leaves() {
    let folder = Folder::new();
    folder.write("idle.hex", "000101\n");
    let tutorial = std::fs::read_to_string(common::top().join("docs/TUTORIAL.md")).expect("the tutorial");
    for (order, answers) in
        [([0, 1, 2, 3, 4, 5, 6, 7, 8, 9], "88,788"), ([0, 2, 4, 6, 8, 1, 3, 5, 7, 9], "741,032")]
    {
        folder.write("chain.model", chain(order));
        folder.done(&["build", "chain.model"]);
        let ran = folder.run(&["compare", "chain.hex", "idle.hex", "--limit", "0"]);
        assert_eq!(table(&ran.out)[1][1], answers, "{}{}", ran.out, ran.err);
        assert!(tutorial.contains(answers));
    }
}
