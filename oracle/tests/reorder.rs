//! Moves by the laws of document 02's point 7 keep the derived steps, and false ones need not. Every move comes up in every place.

use std::collections::{BTreeMap, BTreeSet};
use std::fs;

use oracle::answer::{compare_checked, Answer};
use oracle::bisim::Outcome;
use oracle::calls::{self, Compared, Orders};
use oracle::generate::{added, text, BINARY, HIDE, LEAF, LENGTH, LIMIT, RELABEL, RESTRICT};
use oracle::model::{width, Channels, Model, EXIT, MAX_LINES, TAU};
use oracle::random::Random;
use oracle::reader::read;
use oracle::reorder::{frames, movable_model, move_any, reordered, Move, Path, Reordered, Tree, LAWS};
use oracle::steps::{derive, Step, System};
use oracle::vectors::{rerun, Rerun};

fn cases(count: u64) -> impl Iterator<Item = Random> {
    (0..count).map(|case| Random::of_case(41, case))
}

/// A move, where it was made, and the tree before and after it.
struct Made {
    change: Move,
    path: Path,
    before: Tree,
    after: Tree,
}

/// One of these moves in a generated tree, after up to three moves by laws.
fn made(random: &mut Random, moves: &[Move]) -> Option<Made> {
    let mut before = Tree::new(&movable_model(random));
    for _ in 0..random.below(4) {
        move_any(random, &mut before, &LAWS);
    }
    let mut after = before.clone();
    let (change, path) = move_any(random, &mut after, moves)?;
    Some(Made { change, path, before, after })
}

/// The system of a tree of up to 8 bits, by a text of it.
fn system(random: &mut Random, tree: &Tree) -> Option<System> {
    if bits(tree) > 8 {
        return None;
    }
    derive(&read(&text(&frames(random, tree)?)).expect("accepted"))
}

fn bits(tree: &Tree) -> u32 {
    match tree.kind {
        LEAF => width(tree.rest[0]),
        kind => added(kind) + tree.operands.iter().map(bits).sum::<u32>(),
    }
}

/// Where the codes of a part's operands start in the code of the whole.
fn first_bit(tree: &Tree, path: &[usize]) -> u32 {
    let Some((&operand, rest)) = path.split_first() else { return added(tree.kind) };
    let before: u32 = tree.operands[..operand].iter().map(bits).sum();
    added(tree.kind) + before + first_bit(&tree.operands[operand], rest)
}

/// What becomes of a code: with operands exchanged their codes change places, and else it stays.
fn moved_code(made: &Made, code: u32) -> u32 {
    if !matches!(made.change, Move::ComposeCommutes | Move::JointCommutes) {
        return code;
    }
    let low = first_bit(&made.before, &made.path);
    let [first, second] = [0, 1].map(|operand| bits(&made.before.at(&made.path).operands[operand]));
    let part = |start: u32, width: u32| code >> start & ((1 << width) - 1);
    let (x, y) = (part(low, first), part(low + first, second));
    let others = code & !(((1 << (first + second)) - 1) << low);
    others | y << low | x << (low + second)
}

#[test]
fn each_law_keeps_the_derived_steps() {
    let mut compared = BTreeMap::new();
    for mut random in cases(6000) {
        let Some(made) = made(&mut random, &LAWS) else { continue };
        let systems = (system(&mut random, &made.before), system(&mut random, &made.after));
        let (Some(before), Some(after)) = systems else { continue };
        let code = |code| moved_code(&made, code);
        let mut states: Vec<u32> = before.states.iter().map(|&state| code(state)).collect();
        let step = |step: &Step| Step { from: code(step.from), action: step.action, to: code(step.to) };
        let mut steps: Vec<Step> = before.steps.iter().map(step).collect();
        states.sort_unstable();
        steps.sort_unstable();
        assert_eq!((states, &steps), (after.states, &after.steps), "{:?} of {:?}", made.change, made.before);
        *compared.entry(made.change).or_insert(0) += usize::from(!steps.is_empty());
    }
    println!("moves whose steps were compared: {compared:?}");
    assert!(LAWS.iter().all(|law| compared.get(law) >= Some(&50)), "{compared:?}");
}

/// Every law, below every operator: the operators that stand over the place of a move.
#[test]
fn each_law_comes_up_below_each_operator() {
    let (mut counts, mut below) = (BTreeMap::new(), BTreeSet::new());
    for mut random in cases(20_000) {
        let Some(Made { change, path, before, .. }) = made(&mut random, &LAWS) else { continue };
        *counts.entry(change).or_insert(0) += 1;
        for (depth, &operand) in path.iter().enumerate() {
            below.insert((change, before.at(&path[..depth]).kind, operand));
        }
    }
    println!("moves: {counts:?}");
    assert!(LAWS.iter().all(|law| counts.get(law) >= Some(&200)), "{counts:?}");
    // Both operands of four operators and the one of three.
    let places = 2 * BINARY.len() + [RESTRICT, RELABEL, HIDE].len();
    assert_eq!(below.len(), LAWS.len() * places, "{below:?}");
}

#[test]
fn each_law_is_used_in_the_short_run() {
    let mut counts = BTreeMap::new();
    for case in 0..1000 {
        for change in reordered(&mut Random::of_case(1, case)).moves {
            *counts.entry(change).or_insert(0) += 1;
        }
    }
    println!("moves of 1,000 pairs: {counts:?}");
    assert!(LAWS.iter().all(|law| counts.get(law) >= Some(&50)), "{counts:?}");
}

/// Most pairs have a part or an operator moved, and not only lists written otherwise.
#[test]
fn few_pairs_differ_only_in_lists() {
    let mut only_lists = 0;
    for mut random in cases(3000) {
        let Reordered { before, after, .. } = reordered(&mut random);
        let [before, after] = [before, after].map(|frames| Tree::new(&frames).listed_in_order());
        only_lists += u32::from(before == after);
    }
    println!("pairs of 3,000 that differ only in how lists are written: {only_lists}");
    assert!((1..150).contains(&only_lists), "{only_lists}");
}

/// A step's channel; none for τ.
fn channel(action: u8) -> Option<u8> {
    (action != TAU).then_some(action / 2)
}

#[test]
fn channels_of_a_tree_hold_its_steps() {
    let (mut fewer, mut relabelled) = (0, 0);
    for mut random in cases(3000) {
        let tree = Tree::new(&movable_model(&mut random));
        let Some(system) = system(&mut random, &tree) else { continue };
        let of_steps: Channels = system.steps.iter().filter_map(|step| channel(step.action)).collect();
        assert_eq!(of_steps.0 & !tree.channels().0, 0, "{tree:?}");
        fewer += u32::from(of_steps != tree.channels());
        relabelled += u32::from(tree.paths().iter().any(|path| tree.at(path).kind == RELABEL));
    }
    assert!(fewer > 100 && relabelled > 100, "{fewer} {relabelled}");
}

/// A restriction that moves often takes steps away; else the law would say little.
#[test]
fn restrictions_that_move_take_steps_away() {
    let mut counts = [0, 0];
    for mut random in cases(6000) {
        let Some(Made { path, before, after, .. }) = made(&mut random, &[Move::RestrictMovesOut]) else {
            continue;
        };
        let unrestricted = &after.at(&path).operands[0];
        let systems = (system(&mut random, before.at(&path)), system(&mut random, unrestricted));
        let (Some(restricted), Some(unrestricted)) = systems else { continue };
        counts[usize::from(restricted.steps.len() < unrestricted.steps.len())] += 1;
    }
    println!("moved out where it takes no step away, and where it does: {counts:?}");
    assert!(counts[1] > 100, "{counts:?}");
}

/// Whether a line has more than one use.
fn shares_lines(model: &Model) -> bool {
    let operands: Vec<usize> = model.lines.iter().flat_map(|line| line.process.operands()).collect();
    operands.iter().collect::<BTreeSet<_>>().len() < operands.len()
}

#[test]
fn reordered_texts_have_the_same_size_and_as_many_steps() {
    let mut seen = BTreeSet::new();
    for mut random in cases(3000) {
        let reordered = reordered(&mut random);
        assert_ne!(Tree::new(&reordered.before), Tree::new(&reordered.after), "{reordered:?}");
        let [before, after] =
            [&reordered.before, &reordered.after].map(|frames| read(&text(frames)).expect("accepted"));
        let (left, right) = (before.last(), after.last());
        assert_eq!((left.bits, left.uses, left.states), (right.bits, right.uses, right.states));
        assert!(after.used().iter().all(|&used| used) && after.lines.len() <= MAX_LINES);
        if left.bits <= 8 {
            let steps = [&before, &after].map(|model| derive(model).map(|system| system.steps.len()));
            assert_eq!(steps[0], steps[1], "{reordered:?}");
            let exits =
                derive(&before).is_some_and(|system| system.steps.iter().any(|step| step.action == EXIT));
            seen.extend(exits.then_some("exits"));
        }
        seen.insert(if shares_lines(&after) { "lines shared" } else { "no line shared" });
        seen.insert(if left.bits > 8 { "wide" } else { "narrow" });
        seen.extend(reordered.after.iter().any(|frame| frame.len() >= 254).then_some("long list"));
        seen.extend((after.lines.len() > 24).then_some("many lines"));
    }
    assert_eq!(seen.len(), 7, "{seen:?}");
}

/// What the two calls of a comparison say in each mode, strong first.
fn said(Compared { pair, calls }: &Compared) -> [[Outcome; 2]; 2] {
    calls.each_ref().map(|call| match call.expected(&pair.known) {
        Some(Answer::Given { strong, weak, .. }) => [strong, weak],
        answer => panic!("{answer:?}"),
    })
}

/// The limits of the calls: at times both modes have a verdict, at times only one, at times none. No verdict of the two orders is
/// "different", and beside a third model the same is said of both.
#[test]
fn limits_leave_none_one_or_both_verdicts() {
    let mut seen = [BTreeSet::new(), BTreeSet::new()];
    let fell = |outcomes: [Outcome; 2]| outcomes.map(|outcome| outcome != Outcome::Undecided);
    for mut random in cases(300) {
        let Orders { both, beside_third } = calls::reordered(&mut random);
        let both = said(&both);
        assert!(
            !both.as_flattened().iter().any(|outcome| matches!(outcome, Outcome::Different(_))),
            "{both:?}"
        );
        seen[0].extend(both.map(fell));
        let beside_third: Vec<_> = beside_third.iter().map(said).collect();
        assert!(beside_third.windows(2).all(|orders| orders[0] == orders[1]), "{beside_third:?}");
        seen[1].extend(beside_third.concat().into_iter().map(fell));
    }
    assert!(seen.iter().all(|seen| seen.len() == 4), "{seen:?}");
}

/// Many verdicts are close: they fall after some rounds, or only one mode finds the models equal.
#[test]
fn third_models_give_verdicts_of_all_sorts() {
    let mut counts: BTreeMap<_, BTreeMap<u64, u32>> = BTreeMap::new();
    let (mut weakly_equal, mut left_out) = (0, 0);
    for mut random in cases(300) {
        let beside_third = calls::reordered(&mut random).beside_third;
        left_out += 2 - beside_third.len();
        let Some(first) = beside_third.first() else { continue };
        let verdicts = first.pair.verdicts().expect("room for the list");
        let equal = verdicts.map(|verdict| matches!(verdict, Outcome::Equal(_)));
        weakly_equal += u32::from(equal == [false, true]);
        for ((mode, verdict), equal) in ["strong", "weak"].into_iter().zip(verdicts).zip(equal) {
            let rounds = counts.entry((mode, if equal { "equal" } else { "different" })).or_default();
            *rounds.entry(verdict.rounds()).or_insert(0) += 1;
        }
    }
    println!("verdicts after so many rounds: {counts:?}");
    println!("{weakly_equal} equal in the weak mode alone, {left_out} comparisons without room");
    let late = |rounds: &BTreeMap<u64, u32>| rounds.range(3..).map(|(_, count)| count).sum::<u32>();
    assert!(counts.len() == 4 && counts.values().all(|rounds| late(rounds) >= 5), "{counts:?}");
    assert!(weakly_equal >= 10 && left_out < 10, "{weakly_equal} {left_out}");
}

/// Verdicts that explicit pairs gave too; none if the list does not fit or there are too many pairs.
fn verdicts(left: &[u8], right: &[u8]) -> Option<[Outcome; 2]> {
    let checked = compare_checked(left, right, LIMIT, (LENGTH, LENGTH, LENGTH));
    match checked.answer {
        Answer::Given { strong, weak, .. } if checked.explicit => Some([strong, weak]),
        _ => None,
    }
}

/// How many pairs, before and after one move of this kind, are equal in both modes, and how many are not.
fn found(change: Move) -> (u32, u32) {
    let mut found = (0, 0);
    for mut random in cases(6000) {
        let small = made(&mut random, &[change]).filter(|made| bits(&made.before) <= 5);
        let Some(Made { before, after, .. }) = small else { continue };
        let [before, after] =
            [before, after].map(|tree| text(&frames(&mut random, &tree).expect("few lines")));
        match verdicts(&before, &after) {
            Some([Outcome::Equal(_), Outcome::Equal(_)]) => found.0 += 1,
            Some(_) => found.1 += 1,
            None => {}
        }
    }
    println!("{change:?}: {} equal, {} different", found.0, found.1);
    found
}

#[test]
fn false_moves_at_times_give_different_models() {
    for law in [Move::JointRegroupsRight, Move::RestrictMovesOut] {
        assert!(matches!(found(law), (50.., 0)));
    }
    for change in [Move::JointRegroupsTwoLists, Move::RestrictMovesOutOfUse] {
        assert!(matches!(found(change), (_, 20..)));
    }
}

/// The stored pairs that show what is no law.
#[test]
fn false_pairs_are_different_by_explicit_pairs() {
    let path = concat!(env!("CARGO_MANIFEST_DIR"), "/../tests/vectors.tsv");
    let file = fs::read_to_string(path).expect("the stored answers");
    let mut names = Vec::new();
    for line in file.lines().filter(|line| line.starts_with("no law ")) {
        let Rerun { name, expected, got, explicit } = rerun(line).expect("well formed");
        assert!(explicit && got == expected, "{name}: {got}");
        assert!(got.starts_with("strong different ") && got.contains(" | weak different "), "{name}: {got}");
        names.push(name);
    }
    let no_laws = ["joint-two-lists", "compose-distributes", "restrict-out-of-compose"];
    assert_eq!(names, no_laws.map(|name| format!("no law {name}")));
}
