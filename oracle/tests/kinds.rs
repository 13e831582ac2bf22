//! The short comparison run has every sort of model and of call.

use std::collections::{BTreeMap, BTreeSet};
use std::sync::OnceLock;

use oracle::answer::{table_fits, Answer, Known, MAX_TABLE, WORDS};
use oracle::bisim::Outcome;
use oracle::calls::{any_pair, calls, sequenced as shown_sequences, shown, Call, Pair};
use oracle::generate::{has_sequence, FORMER_BITS, WIDE};
use oracle::list::Nodes;
use oracle::lookup::{codes, last_level, look_up, Ask};
use oracle::model::{Channels, Line, Model, Process, EXIT, EXIT_CHANNEL, MAX_BITS, MAX_USES, TAU};
use oracle::random::Random;
use oracle::reader::{read, Refusal};
use oracle::steps::{derive, System};
use oracle::tables::{any_ask, any_table, Table};
use oracle::texts::any_text;

const SEED: u64 = 1;
const CASES: u64 = 10_000;

/// The pairs of the run, made once for all tests, each with the source of numbers that its calls are drawn from.
fn pairs() -> impl Iterator<Item = (&'static Pair, Random)> {
    static PAIRS: OnceLock<Vec<(Pair, Random)>> = OnceLock::new();
    let pair = |case| {
        let mut random = Random::of_case(SEED, case);
        (any_pair(&mut random), random)
    };
    PAIRS.get_or_init(|| (0..CASES).map(pair).collect()).iter().map(|(pair, random)| (pair, random.clone()))
}

fn kind(line: &Line) -> &'static str {
    match line.process {
        Process::Leaf { .. } => "leaf",
        Process::Compose(..) => "compose",
        Process::Restrict(..) => "restrict",
        Process::Relabel { .. } => "relabel",
        Process::Hide(..) => "hide",
        Process::Joint(..) => "joint",
        Process::Enable(..) => "enable",
        Process::Disable(..) => "disable",
    }
}

fn used_lines(model: &Model) -> Vec<&Line> {
    model.lines.iter().zip(model.used()).filter(|(_, used)| *used).map(|(line, _)| line).collect()
}

#[test]
fn every_operator_stands_over_every_other() {
    let mut nested = BTreeSet::new();
    for (pair, _) in pairs() {
        let Ok(model) = read(&pair.left) else { continue };
        for line in used_lines(&model) {
            let operands = line.process.operands();
            nested.extend(operands.iter().map(|&operand| (kind(line), kind(&model.lines[operand]))));
        }
    }
    assert_eq!(nested.len(), OPERATORS.len() * (1 + OPERATORS.len()), "{nested:?}");
}

fn depth(model: &Model, line: usize) -> usize {
    let operands = model.lines[line].process.operands();
    1 + operands.iter().map(|&operand| depth(model, operand)).max().unwrap_or(0)
}

/// More τ steps than others in the leaves that are used.
fn quiet(model: &Model) -> bool {
    let (mut silent, mut others) = (0, 0);
    for line in used_lines(model) {
        if let Process::Leaf { triples, .. } = &line.process {
            silent += triples.iter().filter(|t| t.action == TAU).count();
            others += triples.iter().filter(|t| t.action != TAU).count();
        }
    }
    silent > others + 2
}

fn sorts(model: &Model) -> Vec<&'static str> {
    let mut sorts = Vec::new();
    if quiet(model) {
        sorts.push("τ-rich");
    }
    if model.used().contains(&false) {
        sorts.push("unused line");
    }
    if depth(model, model.lines.len() - 1) >= 6 {
        sorts.push("nested deeply");
    }
    sorts.extend(used_lines(model).into_iter().map(|line| match line.process {
        Process::Leaf { states: 1, .. } => "one state",
        Process::Leaf { states: 33.., .. } => "six bits",
        Process::Leaf { ref triples, .. } if triples.is_empty() => "no triples",
        Process::Compose(i, j) if i == j => "compose i = j",
        Process::Joint(i, j, _) if i == j => "joint i = j",
        Process::Enable(i, j) if i == j => "enable i = j",
        Process::Disable(i, j) if i == j => "disable i = j",
        Process::Joint(_, _, Channels(0)) => "joint on no channel",
        Process::Restrict(_, Channels(0)) => "restrict no channel",
        Process::Hide(_, Channels(0)) => "hide no channel",
        Process::Relabel { old, new, .. } if old == new => "relabel to itself",
        _ => "other",
    }));
    sorts
}

#[test]
fn every_sort_of_model_comes_up() {
    let seen: BTreeSet<_> =
        pairs().filter_map(|(pair, _)| read(&pair.left).ok()).flat_map(|model| sorts(&model)).collect();
    assert_eq!(seen.len(), 15, "{seen:?}");
}

/// The system of the first lines of a model, the last of which is this one; none if it is large.
fn system(model: &Model, line: usize) -> Option<System> {
    let first = Model { lines: model.lines[..=line].to_vec() };
    (first.last().bits <= 8).then(|| derive(&first)).flatten()
}

fn exits(system: &System) -> bool {
    system.steps.iter().any(|step| step.action == EXIT)
}

/// Whether a step of exit can come up from the start.
fn exits_from_start(System { steps, .. }: &System) -> bool {
    let mut reached = BTreeSet::from([0]);
    loop {
        let before = reached.len();
        let next: Vec<u32> = steps.iter().filter(|s| reached.contains(&s.from)).map(|s| s.to).collect();
        reached.extend(next);
        if reached.len() == before {
            return steps.iter().any(|step| step.action == EXIT && reached.contains(&step.from));
        }
    }
}

const OPERATORS: [&str; 7] = ["compose", "restrict", "relabel", "hide", "joint", "enable", "disable"];
const BINARY: [&str; 4] = ["compose", "joint", "enable", "disable"];

/// An operator's kind, that of an operand whose steps have an exit, and whether all its operands' have one.
type Over = (&'static str, &'static str, bool);

fn over_exits(model: &Model, line: &Line) -> Vec<Over> {
    let operands = line.process.operands();
    let exiting = |&&operand: &&usize| system(model, operand).is_some_and(|system| exits(&system));
    let exiting: Vec<_> = operands.iter().filter(exiting).collect();
    let all = exiting.len() == operands.len();
    exiting.into_iter().map(|&operand| (kind(line), kind(&model.lines[operand]), all)).collect()
}

/// Over each kind whose steps have an exit stands every operator, those of two operands also so that only one of them exits.
#[test]
fn exits_come_up_below_every_operator() {
    let mut seen: BTreeMap<Over, u64> = BTreeMap::new();
    for (pair, _) in pairs() {
        let Ok(model) = read(&pair.left) else { continue };
        let found: BTreeSet<_> =
            used_lines(&model).into_iter().flat_map(|line| over_exits(&model, line)).collect();
        for over in found {
            *seen.entry(over).or_default() += 1;
        }
    }
    let below = ["leaf"].into_iter().chain(OPERATORS);
    let all = below.clone().flat_map(|below| OPERATORS.map(|above| (above, below, true)));
    let one = below.flat_map(|below| BINARY.map(|above| (above, below, false)));
    let rare: Vec<_> = all.chain(one).filter(|over| seen.get(over).is_none_or(|&count| count < 3)).collect();
    assert!(rare.is_empty(), "{rare:?} {seen:?}");
}

/// In many models exit can come up from the start, also where a joint has to take it on both sides.
#[test]
fn exits_come_up_from_the_start() {
    let (mut models, mut some, mut reached, mut joint) = (0, 0, 0, 0);
    for (pair, _) in pairs() {
        let Ok(model) = read(&pair.left) else { continue };
        let last = model.lines.len() - 1;
        let Some(whole) = system(&model, last) else { continue };
        models += 1;
        some += u64::from(exits(&whole));
        reached += u64::from(exits_from_start(&whole));
        joint += u64::from(kind(model.last()) == "joint" && exits_from_start(&whole));
    }
    let counts = (models, some, reached, joint);
    assert!(some > models / 4 && reached > models / 4 && joint > models / 50, "{counts:?}");
}

/// Whether a used line of an accepted pair is an enabling or disabling.
fn sequenced(pair: &Pair) -> bool {
    matches!(pair.known, Known::Traced(_)) && (has_sequence(&pair.left) || has_sequence(&pair.right))
}

#[test]
fn most_accepted_pairs_have_an_enabling_or_disabling() {
    let (mut accepted, mut some, mut verdicts) = (0, 0, BTreeMap::new());
    for (pair, _) in pairs() {
        let Known::Traced(trace) = &pair.known else { continue };
        accepted += 1;
        some += u64::from(sequenced(pair));
        if sequenced(pair) && !trace.full {
            let both = [trace.outcomes.strong, trace.outcomes.weak].map(verdict);
            *verdicts.entry(both).or_insert(0) += 1;
        }
    }
    assert!(2 * some > accepted && 2 * some > CASES, "{some} of {accepted}");
    // Equal in both modes, in one, and in none.
    assert!(verdicts.len() == 3 && verdicts.values().all(|&count| count > CASES / 40), "{verdicts:?}");
    let shown = (0..1000).map(|case| shown_sequences(&mut Random::of_case(SEED, case)));
    assert!(shown.into_iter().all(|(pair, _)| sequenced(&pair)));
}

/// Each of both over each of both as either operand, with exits that come up from the first's start, or not; and as the whole.
#[test]
fn enablings_and_disablings_come_up_in_every_place() {
    let mut seen: BTreeMap<_, u64> = BTreeMap::new();
    for (pair, _) in pairs() {
        let Ok(model) = read(&pair.left) else { continue };
        for line in used_lines(&model).into_iter().filter(|line| line.process.added_bits() > 0) {
            let operands = line.process.operands();
            let ends = system(&model, operands[0]).is_some_and(|first| exits_from_start(&first));
            for (place, &operand) in operands.iter().enumerate() {
                *seen.entry((kind(line), place, kind(&model.lines[operand]), ends)).or_default() += 1;
            }
        }
    }
    let below = ["leaf"].into_iter().chain(OPERATORS);
    let wanted = below.flat_map(|below| {
        ["enable", "disable"].into_iter().flat_map(move |above| {
            [(0, true), (0, false), (1, true), (1, false)].map(|(place, ends)| (above, place, below, ends))
        })
    });
    let rare: Vec<_> = wanted.filter(|sort| seen.get(sort).is_none_or(|&count| count < 5)).collect();
    assert!(rare.is_empty(), "{rare:?} {seen:?}");
    let of = |ending| seen.iter().filter(|(sort, _)| sort.3 == ending).map(|(_, count)| count).sum::<u64>();
    assert!(of(true) > of(false), "{} {}", of(true), of(false));
}

/// The refusal of the first line that is refused, if that is an enabling, a disabling or of the first unknown kind: its number,
/// kind and length, and of one that is refused by its size its bits and uses.
fn wrong_sequence(text: &[u8]) -> Option<(u8, u8, usize, &'static str)> {
    let Err(Refusal { number, line }) = read(text) else { return None };
    let lines: Vec<&[u8]> = text.split_inclusive(|&b| b == b'\n').collect();
    let frame = frame(lines.get(line)?).filter(|frame| matches!(frame.get(1), Some(7..=9)))?;
    let size = match number {
        6 => {
            let before = read(&lines[..line].concat()).ok()?;
            let bits = joined_bits(lines[line], &before);
            let uses: u32 = frame[2..].iter().map(|&i| before.lines[usize::from(i)].uses).sum();
            match (bits > MAX_BITS, uses > MAX_USES) {
                (true, true) => "bits and uses",
                (true, false) if bits == MAX_BITS + 1 => "25 bits",
                (true, false) => "bits",
                _ if uses == MAX_USES + 1 => "65 uses",
                _ => "uses",
            }
        }
        _ => "",
    };
    Some((number, frame[1], frame.len() - 2, size))
}

#[test]
fn every_wrong_enabling_and_disabling_comes_up() {
    let both = |number, length, size| [(number, 7, length, size), (number, 8, length, size)];
    let lengths = [0, 1, 3, 4, 253].into_iter().flat_map(|length| both(4, length, ""));
    let sizes = ["25 bits", "bits"].into_iter().flat_map(|size| both(6, 2, size));
    let wanted: Vec<_> = lengths.chain(both(5, 2, "")).chain(sizes).chain([(4, 9, 2, "")]).collect();
    let uses = ["65 uses", "uses"].into_iter().flat_map(|size| both(6, 2, size));
    let in_texts: Vec<_> = wanted.iter().copied().chain(uses).collect();
    let texts = (0..4 * CASES).map(|case| any_text(&mut Random::of_case(SEED, case)));
    let seen: BTreeSet<_> = texts.filter_map(|text| wrong_sequence(&text)).collect();
    let missing: Vec<_> = in_texts.iter().filter(|sort| !seen.contains(sort)).collect();
    assert!(missing.is_empty(), "{missing:?}");
    for right in [false, true] {
        let text = |pair: &'static Pair| if right { &pair.right } else { &pair.left };
        let seen: BTreeSet<_> = pairs().filter_map(|(pair, _)| wrong_sequence(text(pair))).collect();
        let missing: Vec<_> = wanted.iter().filter(|sort| sort.0 < 6 && !seen.contains(sort)).collect();
        assert!(missing.is_empty(), "right {right}: {missing:?}");
    }
}

/// Accepted lines of both kinds with as many bits as are allowed, and with as many uses.
#[test]
fn enablings_and_disablings_at_the_ends_come_up() {
    let at_end = |line: &Line| match (line.bits, line.uses) {
        (MAX_BITS, _) => Some((kind(line), "bits")),
        (_, MAX_USES) => Some((kind(line), "uses")),
        _ => None,
    };
    let wanted: BTreeSet<_> =
        ["enable", "disable"].into_iter().flat_map(|kind| ["bits", "uses"].map(|end| (kind, end))).collect();
    let texts = (0..4 * CASES).map(|case| any_text(&mut Random::of_case(SEED, case)));
    let models = texts.filter_map(|text| read(&text).ok());
    let seen: BTreeSet<_> =
        models.flat_map(|model| model.lines.iter().filter_map(at_end).collect::<Vec<_>>()).collect();
    assert!(seen.is_superset(&wanted), "{seen:?}");
    let models = pairs().filter_map(|(pair, _)| read(&pair.left).ok());
    let seen: BTreeSet<_> = models
        .flat_map(|model| used_lines(&model).into_iter().filter_map(at_end).collect::<Vec<_>>())
        .collect();
    assert!(seen.contains(&("enable", "bits")) && seen.contains(&("disable", "bits")), "{seen:?}");
}

/// The bytes of a line; none if it has other characters than digits.
fn frame(line: &[u8]) -> Option<Vec<u8>> {
    let digits = std::str::from_utf8(line.strip_suffix(b"\n")?).ok()?;
    (0..digits.len()).step_by(2).map(|at| u8::from_str_radix(digits.get(at..at + 2)?, 16).ok()).collect()
}

/// The places of a leaf's actions or of another frame's channels, and the value about exit that is wrong there.
fn places(frame: &[u8]) -> (Vec<usize>, u8) {
    let (first, every, wrong) = match frame[1] {
        1 => (4, 3, EXIT + 1),
        6 => (4, 1, EXIT_CHANNEL),
        _ => (3, 1, EXIT_CHANNEL),
    };
    ((first..frame.len()).step_by(every).collect(), wrong)
}

/// The kind of a line that refusal 5 is due of for one value about exit alone, and where that stands.
fn misuse(text: &[u8]) -> Option<(u8, &'static str)> {
    let Err(Refusal { number: 5, line }) = read(text) else { return None };
    let mut lines: Vec<Vec<u8>> = text.split_inclusive(|&b| b == b'\n').map(<[u8]>::to_vec).collect();
    let frame = frame(&lines[line])?;
    let (places, wrong) = places(&frame);
    let index = places.iter().position(|&place| frame[place] == wrong)?;
    // With the largest value that may stand there the line is accepted.
    let digits = 2 * places[index]..2 * places[index] + 2;
    lines[line][digits].copy_from_slice(format!("{:02X}", wrong - 1).as_bytes());
    let position = match index {
        0 => "first",
        _ if index + 1 == places.len() => "last",
        _ => "between",
    };
    read(&lines[..=line].concat()).is_ok().then_some((frame[1], position))
}

#[test]
fn every_misuse_of_exit_comes_up() {
    let lists = [1, 3, 5, 6].into_iter().flat_map(|kind| ["first", "between", "last"].map(|at| (kind, at)));
    let wanted: BTreeSet<_> = lists.chain([(4, "first"), (4, "last")]).collect();
    let texts = (0..2 * CASES).map(|case| any_text(&mut Random::of_case(SEED, case)));
    let seen: BTreeSet<_> = texts.filter_map(|text| misuse(&text)).collect();
    assert_eq!(seen, wanted);
    let sides =
        |pair: &Pair| [misuse(&pair.left), misuse(&pair.right)].into_iter().flatten().collect::<Vec<_>>();
    let seen: BTreeSet<_> = pairs().flat_map(|(pair, _)| sides(pair)).collect();
    assert_eq!(seen, wanted);
}

#[test]
fn many_rounds_and_large_lists_come_up() {
    let (mut rounds, mut nodes) = (0, 0);
    for (pair, _) in pairs() {
        if let Known::Traced(trace) = &pair.known {
            rounds = rounds.max(trace.whole.len());
            nodes = nodes.max(pair.needed());
        }
    }
    assert!(rounds > 20 && nodes > 100_000, "{rounds} {nodes}");
}

fn verdict(outcome: Outcome) -> &'static str {
    match outcome {
        Outcome::Equal(_) => "equal",
        Outcome::Different(_) => "different",
        Outcome::Undecided => "9",
    }
}

fn answer_sort(call: &Call, known: &Known) -> String {
    match call.expected(known) {
        None => format!("{} words", call.words),
        Some(Answer::Full { .. }) => "8 2".to_string(),
        Some(Answer::Refused { number, side, .. }) => format!("{number} {side}"),
        Some(Answer::Given { strong, weak, .. }) => format!("{} and {}", verdict(strong), verdict(weak)),
    }
}

/// Strongly equal is weakly equal, and a strong 9 never stands beside a weak "different".
const VERDICTS: [&str; 7] = [
    "equal and equal",
    "equal and 9",
    "different and equal",
    "different and different",
    "different and 9",
    "9 and equal",
    "9 and 9",
];

#[test]
fn every_answer_comes_up() {
    let mut seen = BTreeSet::new();
    for (pair, mut random) in pairs() {
        seen.extend(calls(&mut random, pair).iter().map(|call| answer_sort(call, &pair.known)));
    }
    assert!(VERDICTS.iter().all(|&sort| seen.contains(sort)), "{seen:?}");
    // Beside these 0 to 11 words, 1 to 6 on two sides, 7 and 8.
    assert_eq!(seen.len(), VERDICTS.len() + WORDS + 12 + 2, "{seen:?}");
}

/// Room for each of the three numbers of nodes, for one less and for one more, in many calls.
#[test]
fn tables_at_the_end_of_each_stage_come_up() {
    let mut seen = [[0; 3]; 3];
    for (pair, mut random) in pairs() {
        let Known::Traced(trace) = &pair.known else { continue };
        for call in calls(&mut random, pair) {
            let Nodes { relations, answers, whole } = trace.by(call.limit);
            for (number, seen) in [relations, answers, whole].into_iter().zip(&mut seen) {
                let more = call.table[0].checked_sub(number.saturating_add(1));
                if let Some(seen) = more.and_then(|more| seen.get_mut(more)) {
                    *seen += 1;
                }
            }
        }
    }
    assert!(seen.iter().flatten().all(|&calls| calls > CASES / 5), "{seen:?}");
}

/// Too few words are told before 7, whatever is wrong with the table.
#[test]
fn too_few_words_come_up_beside_an_unfit_table() {
    let unfit = |call: &Call| call.words < WORDS && !table_fits(call.table.into());
    assert!(pairs().any(|(pair, mut random)| calls(&mut random, pair).iter().any(unfit)));
}

#[test]
fn look_ups_beside_each_9_come_up() {
    let mut seen = BTreeSet::new();
    for case in 0..3000 {
        let (pair, call) = shown(&mut Random::of_case(SEED, case));
        seen.insert(answer_sort(&call, &pair.known));
    }
    assert!(VERDICTS.iter().all(|&sort| seen.contains(sort)), "{seen:?}");
}

#[test]
fn every_length_comes_up() {
    let (mut work, mut table, mut limits) = (BTreeSet::new(), BTreeSet::new(), BTreeSet::new());
    for (pair, mut random) in pairs() {
        for call in calls(&mut random, pair) {
            let sort = |length: usize| if length < 2 { length } else { 2 + length % 2 };
            work.insert(sort(call.work));
            table.insert(call.table[0]);
            limits.insert(call.limit);
        }
    }
    assert_eq!(work.len(), 4);
    assert!([0, 1, 2, MAX_TABLE, MAX_TABLE + 1].iter().all(|length| table.contains(length)));
    assert!([0, 1, 2, u64::MAX].iter().all(|limit| limits.contains(limit)));
    // The other limits are products of numbers of states.
    assert!(limits.len() > 20);
}

/// The most bits of a line, and whether the last line is it or uses it; of a text that is refused by its bits, those of the
/// line that is refused. None of another refused text.
fn widest(text: &[u8]) -> Option<(u32, bool)> {
    let lines: Vec<&[u8]> = text.split_inclusive(|&byte| byte == b'\n').collect();
    match read(text) {
        Ok(model) => model.lines.iter().map(|line| line.bits).zip(model.used()).max(),
        Err(Refusal { number: 6, line }) => {
            let before = read(&lines[..line].concat()).ok()?;
            Some((joined_bits(lines[line], &before), line + 1 == lines.len()))
        }
        Err(_) => None,
    }
}

/// The bits of a line that joins two lines of the model, with those that an enabling or disabling adds.
fn joined_bits(line: &[u8], model: &Model) -> u32 {
    let digits = std::str::from_utf8(line).expect("refused by its bits");
    let byte = |place| usize::from_str_radix(&digits[place..place + 2], 16).expect("digits");
    let added = match byte(2) {
        7 => 1,
        8 => 2,
        _ => 0,
    };
    added + model.lines[byte(4)].bits + model.lines[byte(6)].bits
}

#[test]
fn texts_of_every_width_about_the_limit_come_up() {
    let texts = (0..CASES).map(|case| any_text(&mut Random::of_case(SEED, case)));
    let seen: BTreeSet<_> = texts.filter_map(|text| widest(&text)).collect();
    let wanted = WIDE.into_iter().flat_map(|bits| [(bits, false), (bits, true)]).collect();
    assert!(seen.is_superset(&wanted), "{seen:?}");
}

/// The most bits that a model of the pair uses, with its side and the answer.
fn width_sorts(pair: &Pair) -> Vec<(u32, u8, &'static str)> {
    let (sides, sort) = match &pair.known {
        Known::Refused(Answer::Refused { number: 6, side, .. }) => (vec![*side], "refused"),
        Known::Refused(_) => return vec![],
        Known::Traced(trace) if trace.full => (vec![0, 1], "full"),
        Known::Traced(trace) => (vec![0, 1], verdict(trace.outcomes.strong)),
    };
    let used = |side: u8| widest(if side == 0 { &pair.left } else { &pair.right }).filter(|width| width.1);
    sides.into_iter().filter_map(|side| Some((used(side)?.0, side, sort))).collect()
}

#[test]
fn comparisons_of_every_width_about_the_limit_come_up() {
    let seen: BTreeSet<_> = pairs().flat_map(|(pair, _)| width_sorts(pair)).collect();
    let accepted = |bits| ["equal", "different", "full"].map(|sort| (bits, sort));
    let sorts = [FORMER_BITS, FORMER_BITS + 1, MAX_BITS].into_iter().flat_map(accepted);
    let sorts = sorts.chain([(MAX_BITS + 1, "refused")]);
    let wanted = sorts.flat_map(|(bits, sort)| [(bits, 0, sort), (bits, 1, sort)]).collect();
    assert!(seen.is_superset(&wanted), "{seen:?}");
}

/// The edges of a look-up's arguments, each with whether it is due here.
fn edges(table: &Table, ask: &Ask) -> Vec<(&'static str, bool)> {
    let length = table.lengths[0] as u64;
    let child =
        |to: u64| table.entries.iter().any(|(_, e)| u64::from(e.low) == to || u64::from(e.high) == to);
    let loops = table.entries.iter().any(|(at, e)| *at > 1 && (e.low == *at as u32 || e.high == *at as u32));
    let lengths = |of: usize| table.lengths == [of; 3];
    vec![
        ("lengths 0", lengths(0)),
        ("lengths 1", lengths(1)),
        ("lengths 2", lengths(2)),
        ("longest", lengths(MAX_TABLE)),
        ("too long", lengths(MAX_TABLE + 1)),
        ("level unequal", table.lengths[0] != table.lengths[1] && table.lengths[1] == table.lengths[2]),
        ("low unequal", table.lengths[0] != table.lengths[1] && table.lengths[0] == table.lengths[2]),
        ("high unequal", table.lengths[0] != table.lengths[2] && table.lengths[0] == table.lengths[1]),
        ("root beyond", ask.root == length),
        ("root above 32 bits", ask.root >= 1 << 32),
        ("action 63", ask.action == 63),
        ("action 64", ask.action == 64),
        ("action 64 from 0", ask.action == 64 && ask.root == 0),
        ("action 64 from 1", ask.action == 64 && ask.root == 1),
        ("action 2^64 - 1", ask.action == u64::MAX),
        ("child beyond", child(length)),
        ("child far beyond", child(u32::MAX.into())),
        ("cycle", loops),
    ]
}

#[test]
fn every_edge_of_a_look_up_comes_up() {
    let (mut due, mut all, mut far) = (BTreeSet::new(), BTreeSet::new(), BTreeSet::new());
    for case in 0..1000 {
        let mut random = Random::of_case(SEED, case);
        let table = any_table(&mut random);
        let slices = table.slices();
        for _ in 0..16 {
            let ask = any_ask(&mut random, &table);
            let edges = edges(&table, &ask);
            all.extend(edges.iter().map(|edge| edge.0));
            due.extend(edges.iter().filter(|edge| edge.1).map(|edge| edge.0));
            if table.lengths == [MAX_TABLE; 3] && ask.root as usize > MAX_TABLE / 2 {
                far.insert(look_up(&slices, &ask));
            }
        }
    }
    assert_eq!(due, all);
    // Walks that start in the second half of the longest table have every answer.
    assert_eq!(far, [0, 1, 10].into());
}

/// Asks of the tables of a short run that refusal 7 is not due of.
fn asks() -> impl Iterator<Item = (Table, Ask, u64)> {
    (0..3000).flat_map(|case| {
        let mut random = Random::of_case(SEED, case);
        let table = any_table(&mut random);
        let slices = table.slices();
        let ask = |_| {
            let ask = any_ask(&mut random, &table);
            (table.clone(), ask, look_up(&slices, &ask))
        };
        (0..16).map(ask).filter(|&(_, _, answer)| answer != 7).collect::<Vec<_>>()
    })
}

#[test]
fn every_code_at_an_end_comes_up_in_each_place_with_each_root() {
    let ends = [codes(FORMER_BITS), codes(MAX_BITS) - 1, codes(MAX_BITS)];
    let mut seen = BTreeSet::new();
    for (_, ask, answer) in asks() {
        let at_end = |&(_, code): &(usize, u64)| ends.contains(&code);
        seen.extend(
            ask.codes
                .into_iter()
                .enumerate()
                .filter(at_end)
                .map(|(place, code)| (place, code, ask.root.min(2), answer)),
        );
    }
    // With root 0 and 1, and from a node on walks to 0, 1 and 10; with the first code out of range 10 alone.
    assert_eq!(seen.len(), 4 * (2 * (2 + 3) + 3), "{seen:?}");
}

#[test]
fn a_root_at_every_level_at_an_end_comes_up() {
    let (former, last) = (last_level(FORMER_BITS), last_level(MAX_BITS));
    let mut seen = BTreeSet::new();
    for (table, ask, answer) in
        asks().filter(|(_, ask, _)| ask.action < 64 && ask.codes.iter().all(|&code| code < codes(MAX_BITS)))
    {
        let root = table.entries.iter().find(|(index, _)| *index as u64 == ask.root && ask.root > 1);
        seen.extend(root.map(|(_, entry)| (entry.level, answer)));
    }
    let answers =
        |level: u8| seen.iter().filter(|seen| seen.0 == level).map(|seen| seen.1).collect::<Vec<_>>();
    assert!([former, former + 1, last].iter().all(|&level| answers(level) == [0, 1, 10]), "{seen:?}");
    assert!([last + 1, 254, 255].iter().all(|&level| answers(level) == [10]), "{seen:?}");
}
