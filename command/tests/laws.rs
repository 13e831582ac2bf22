//! The laws of docs/LAWS.md: the pairs of models/laws are built, compared and listed, and the page shows them as they are.

mod common;

use common::{page, run, top, Folder};
use std::collections::BTreeSet;
use std::fs;

/// Laws by which every state keeps its code.
const KEEPING: &[&str] = &[
    "compose_regroups",
    "restrict_commutes",
    "joint_regroups",
    "restrict_splits",
    "same_channels",
    "restrict_moves_out",
];

/// Laws by which parts change places, and several laws inside one station.
const MOVING: &[&str] = &["compose_commutes", "joint_commutes", "inside"];

/// What is no law.
const FALSE: &[&str] = &["joint_two_lists", "compose_distributes", "restrict_out_of_compose"];

/// A station in another order than the one of models/, with more nodes.
const ALONE: &str = "link_last";

fn laws() -> impl Iterator<Item = &'static str> {
    KEEPING.iter().chain(MOVING).copied()
}

fn pairs() -> impl Iterator<Item = &'static str> {
    laws().chain(FALSE.iter().copied())
}

fn sides(law: &str) -> [String; 2] {
    ["left", "right"].map(|side| format!("{law}_{side}"))
}

fn stored(file: &str) -> String {
    fs::read_to_string(top().join("models/laws").join(file)).expect("a file of models/laws")
}

/// The names of the files with this ending, without it.
fn names(ending: &str) -> BTreeSet<String> {
    let files = fs::read_dir(top().join("models/laws")).expect("models/laws");
    let paths = files.map(|file| file.expect("a file").path());
    let named = paths.filter(|path| path.extension().is_some_and(|found| found == ending));
    named.map(|path| path.file_stem().expect("a name").to_string_lossy().into_owned()).collect()
}

/// The texts of a pair.
fn texts(law: &str) -> [String; 2] {
    sides(law).map(|name| format!("models/laws/{name}.hex"))
}

/// A command on each text of a pair.
fn both(law: &str, words: &[&str]) -> [String; 2] {
    texts(law).map(|file| {
        let ran = run(&[words, &[&file]].concat());
        assert_eq!(ran.status, 0, "{file}: {}", ran.err);
        ran.out
    })
}

/// The lines of the two verdicts.
fn verdicts(law: &str) -> Vec<String> {
    let [left, right] = texts(law);
    let ran = run(&["compare", &left, &right]);
    assert_eq!(ran.err, "", "{law}");
    ran.out.lines().take(2).map(str::to_string).collect()
}

#[test]
fn every_file_is_tried() {
    let tried: BTreeSet<String> = pairs().flat_map(sides).chain([ALONE.to_string()]).collect();
    for ending in ["model", "hex", "names"] {
        assert_eq!(names(ending), tried, "{ending}");
    }
    let rows = fs::read_to_string(top().join("models/EXPECTED.tsv")).expect("the stored verdicts");
    let alone = [format!("laws/{ALONE}.hex"), "shuttle8_service.hex".to_string()];
    for files in pairs().map(|law| sides(law).map(|name| format!("laws/{name}.hex"))).chain([alone]) {
        let row = format!("\n{}\t{}\t", files[0], files[1]);
        assert!(rows.contains(&row), "{files:?} are not among the stored comparisons");
    }
}

/// The files of a pair are built together.
#[test]
fn texts_are_those_of_the_files() {
    let folder = Folder::new();
    for files in pairs().map(|law| sides(law).to_vec()).chain([vec![ALONE.to_string()]]) {
        let sources: Vec<String> = files.iter().map(|name| format!("{name}.model")).collect();
        for source in &sources {
            folder.write(source, stored(source));
        }
        folder.done(&[&["build"], &sources.iter().map(String::as_str).collect::<Vec<_>>()[..]].concat());
        for built in files.iter().flat_map(|name| [format!("{name}.hex"), format!("{name}.names")]) {
            assert_eq!(folder.read(&built), stored(&built), "{built}: build the pair anew");
        }
    }
}

/// The lines of a model may be more or fewer; leaf uses, bits and states are the same.
#[test]
fn laws_hold() {
    for law in laws() {
        let found = verdicts(law);
        for (line, mode) in found.iter().zip(["strong", "weak"]) {
            assert!(line.starts_with(&format!("{mode:<6}  equal      ")), "{law}: {line}");
        }
        assert_eq!(found.len(), 2, "{law}");
        let sizes = both(law, &["check"]).map(|said| {
            let (_, size) = said.split_once(" leaf line").expect("the size of a model");
            size.split_once(", ").expect("the leaf uses").1.to_string()
        });
        assert!(sizes[0].contains(" leaf uses, ") && sizes[0].ends_with(" states.\n"), "{sizes:?}");
        assert_eq!(sizes[0], sizes[1], "{law}");
    }
}

/// A state with its leaves in the order of their names.
fn sorted(state: &str) -> String {
    let mut leaves: Vec<&str> = state.split(' ').collect();
    leaves.sort_unstable();
    leaves.join(" ")
}

/// The steps of a listing, leaves in the order of their names.
fn steps(listing: &str) -> BTreeSet<[String; 3]> {
    let mut state = String::new();
    let mut all = BTreeSet::new();
    for line in listing.lines().skip(1) {
        match line.strip_prefix("  -- ").and_then(|step| step.split_once(" --> ")) {
            Some((action, next)) => drop(all.insert([state.clone(), action.to_string(), sorted(next)])),
            None => state = sorted(line),
        }
    }
    all
}

#[test]
fn listings_have_the_same_steps() {
    for law in KEEPING {
        let [left, right] = both(law, &["steps", "--all"]);
        assert_eq!(left, right, "{law}");
    }
    for law in MOVING {
        let [left, right] = both(law, &["steps", "--all"]);
        assert_ne!(left, right, "{law}");
        assert_eq!(steps(&left), steps(&right), "{law}");
        let first = |listing: &str| listing.lines().next().map(str::to_string);
        assert_eq!(first(&left), first(&right), "{law}: the numbers of states and steps");
    }
}

/// The strong bisimulation has each state beside itself: with the same code, or with its leaves in the other order.
#[test]
fn listed_pairs_have_each_state_beside_itself() {
    for law in laws() {
        let [left, right] = texts(law);
        let ran = run(&["pairs", &left, &right, "--mode", "strong"]);
        assert_eq!(ran.status, 0, "{law}: {}", ran.err);
        let ordered = |state: &str| if MOVING.contains(&law) { sorted(state) } else { state.to_string() };
        let sides = ran.out.lines().filter_map(|line| line.split_once("  ~  "));
        let alike = sides.filter(|(left, right)| ordered(left) == ordered(right));
        let alike: BTreeSet<&str> = alike.map(|(left, _)| left).collect();
        let [listing, _] = both(law, &["steps", "--all"]);
        let states: BTreeSet<&str> =
            listing.lines().skip(1).filter(|line| !line.starts_with("  -- ")).collect();
        assert!(!states.is_empty(), "{law}");
        assert_eq!(alike, states, "{law}");
    }
}

/// What stands behind a name in the statement of the theorem, or in the rows that it uses.
fn defined(name: &str) -> String {
    let specs = ["Reordering", "Rows"].map(|file| top().join(format!("crates/verdicts/specs/{file}.antt")));
    let specs = specs.map(|path| fs::read_to_string(path).expect("the statement of the theorem")).concat();
    let found = specs.lines().find_map(|line| line.strip_prefix(name)?.strip_prefix(" = "));
    found.unwrap_or_else(|| panic!("{name} is not defined")).to_string()
}

/// The two texts are those of the proved theorem, and so are the verdicts with their rounds.
#[test]
fn false_pairs_differ() {
    for name in FALSE {
        let row = defined(name);
        let words: Vec<&str> = row.split([' ', '(', ')']).filter(|word| !word.is_empty()).collect();
        let ["row", left, right, "unnamed", "different", strong, "different", weak] = words[..] else {
            panic!("{name}: {row}");
        };
        for (file, text) in sides(name).iter().zip([left, right]) {
            let bytes: Vec<String> =
                stored(&format!("{file}.hex")).bytes().map(|byte| format!("{byte} ∷ ")).collect();
            assert_eq!(defined(text), bytes.concat() + "[]", "{file}");
        }
        let expected = [("strong", strong), ("weak", weak)].map(|(mode, rounds)| {
            let ending = if rounds == "1" { "" } else { "s" };
            format!("{mode:<6}  different  {rounds} round{ending}")
        });
        assert_eq!(verdicts(name), expected, "{name}");
    }
}

/// One line is written otherwise than in models/.
#[test]
fn link_last_is_the_shuttle() {
    let shuttle = fs::read_to_string(top().join("models/shuttle8_cells.hex")).expect("the shuttle");
    let moved = shuttle.replace("\n1D02021C\n", "\n1D021C02\n");
    assert_ne!(moved, shuttle);
    assert_eq!(stored(&format!("{ALONE}.hex")), moved);
}

/// The lines of a pair as the page has them: those of its files side by side below their names, then the verdicts.
struct Block {
    law: String,
    /// What the page says above them, in one line.
    above: String,
    files: [Vec<String>; 2],
    verdicts: Vec<String>,
}

fn block(above: &str, paragraph: &str) -> Option<Block> {
    let mut lines = paragraph.lines().map(|line| line.strip_prefix("    ").unwrap_or_default());
    let heads: Vec<&str> = lines.next()?.split_whitespace().collect();
    let [left, right] = heads[..] else { return None };
    let law = left.strip_suffix("_left.model")?.to_string();
    assert_eq!(right, format!("{law}_right.model"));
    let column = paragraph.find(right)? - "    ".len();
    let (verdicts, shown): (Vec<&str>, Vec<&str>) =
        lines.partition(|line| ["strong ", "weak "].iter().any(|mode| line.starts_with(mode)));
    let halves = shown.iter().map(|line| line.split_at(column.min(line.len())));
    let (left, right): (Vec<&str>, Vec<&str>) = halves.unzip();
    let files = [left, right].map(|side| {
        side.iter().map(|line| line.trim_end().to_string()).filter(|line| !line.is_empty()).collect()
    });
    let verdicts = verdicts.iter().map(|line| line.to_string()).collect();
    Some(Block { law, above: above.replace('\n', " "), files, verdicts })
}

fn blocks(page: &str) -> Vec<Block> {
    let paragraphs: Vec<&str> = page.split("\n\n").collect();
    paragraphs.windows(2).filter_map(|two| block(two[0], two[1])).collect()
}

/// The page has each pair once, with the last lines of its files; above these both files are the same, but for what they say of
/// themselves.
#[test]
fn the_page_shows_each_pair() {
    let page = page::text("LAWS.md");
    let blocks = blocks(&page);
    let mut shown: Vec<String> = blocks.iter().flat_map(|block| sides(&block.law)).collect();
    shown.sort_unstable();
    let mut files = names("model");
    assert!(files.remove(ALONE) && page.contains(&format!("models/laws/{ALONE}.")));
    assert_eq!(shown, files.into_iter().collect::<Vec<_>>());
    for Block { law, files, verdicts: found, .. } in blocks {
        let mut not_shown = Vec::new();
        for (name, lines) in sides(&law).iter().zip(files) {
            let file = stored(&format!("{name}.model"));
            let code = file.lines().filter(|line| !line.is_empty() && !line.starts_with('#'));
            let mut all: Vec<String> = code.map(str::to_string).collect();
            assert!(!lines.is_empty(), "{name}");
            assert_eq!(all.split_off(all.len() - lines.len()), lines, "{name}");
            not_shown.push(all);
        }
        assert_eq!(not_shown[0], not_shown[1], "{law}: the page leaves out lines in which the files differ");
        assert_eq!(verdicts(&law), found, "{law}");
    }
}

/// Above each pair stands the law's name, and what becomes of the states.
#[test]
fn the_page_names_each_law() {
    let page = page::text("LAWS.md");
    for Block { law, above, .. } in blocks(&page) {
        let law = law.as_str();
        let name = match law {
            "inside" => "Inside a station.**".to_string(),
            _ => law.replace('_', "-") + "**:",
        };
        let sentence = match law {
            "inside" => "Two parts change places in several of its processes, so codes differ.",
            _ if KEEPING.contains(&law) => "Every state keeps its code.",
            _ if MOVING.contains(&law) => "The two parts change places.",
            _ => "",
        };
        assert!(above.starts_with(&format!("**{name} ")), "{law}: {above}");
        assert!(above.contains(sentence), "{law}: {above}");
    }
}

#[test]
fn every_command_of_the_page_prints_what_is_shown() {
    assert_eq!(page::runs("LAWS.md"), 2);
}
