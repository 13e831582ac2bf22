//! Generated comparisons with all that is lent to them, and their expected answers.

use crate::answer::{known, table_fits, Answer, Known, MAX_TABLE, UNFIT, WORDS};
use crate::bisim::Outcome;
use crate::generate::{
    chain_pair, in_any_order, malformed, model, pair, redirect_any_triple, sequenced_pair, text, variant,
    wide_pair, Frame,
};
use crate::list::Nodes;
use crate::random::Random;
use crate::reader::read;
use crate::reorder::{self, Reordered};

/// The arguments of a call that are not texts; lengths are in elements.
#[derive(Clone, Debug)]
pub struct Call {
    pub limit: u64,
    /// Level, low and high.
    pub table: [usize; 3],
    pub work: usize,
    /// Words of the answer.
    pub words: usize,
}

impl Call {
    /// None where the answer has too few words.
    pub fn expected(&self, known: &Known) -> Option<Answer> {
        let [level, low, high] = self.table;
        if self.words < WORDS {
            None
        } else if !table_fits((level, low, high)) {
            Some(UNFIT)
        } else {
            Some(match known {
                Known::Refused(answer) => *answer,
                Known::Traced(trace) => trace.answer(self.limit, level),
            })
        }
    }
}

/// Two texts with what is known of them.
pub struct Pair {
    pub left: Vec<u8>,
    pub right: Vec<u8>,
    pub known: Known,
}

/// Lists that need more nodes are given up; few generated ones do.
const ROOM: usize = 1 << 18;

/// Few lists need more nodes, but these take most of the time.
const LARGE: usize = 1 << 16;

impl Pair {
    pub fn new(left: Vec<u8>, right: Vec<u8>) -> Pair {
        let known = known(&left, &right, ROOM);
        Pair { left, right, known }
    }

    /// Nodes needed up to both verdicts, or all the room if they do not fit into it.
    pub fn needed(&self) -> usize {
        self.stages(u64::MAX)[2]
    }

    /// Nodes needed by this limit, or by the last one that there is room for.
    fn needed_by(&self, limit: u64) -> usize {
        let Known::Traced(trace) = &self.known else { return 0 };
        let last = trace.whole.len().saturating_sub(1);
        trace.whole.get(limit.min(last as u64) as usize).copied().unwrap_or(0)
    }

    /// Nodes needed by this limit, up to the relations, up to the weak answers and as a whole; all the room where they do not fit
    /// into it.
    fn stages(&self, limit: u64) -> [usize; 3] {
        let Known::Traced(trace) = &self.known else { return [0; 3] };
        let Nodes { relations, answers, whole } = trace.by(limit);
        [relations, answers, whole].map(|number| number.min(ROOM))
    }

    /// Both modes' verdicts, strong first; none where the list was not evaluated up to both.
    pub fn verdicts(&self) -> Option<[Outcome; 2]> {
        match &self.known {
            Known::Traced(trace) if !trace.full => Some([trace.outcomes.strong, trace.outcomes.weak]),
            _ => None,
        }
    }

    pub fn has_verdicts(&self) -> bool {
        self.verdicts().is_some()
    }

    /// A limit up to one past the last iterate, or the one by which the first verdict falls; by most of these some mode has
    /// no verdict.
    fn early_limit(&self, random: &mut Random) -> u64 {
        let Known::Traced(trace) = &self.known else { return 0 };
        let any = random.below(trace.whole.len() + 1) as u64;
        let first = trace.outcomes.strong.rounds().min(trace.outcomes.weak.rounds());
        random.pick(&[any, first])
    }

    /// 0, 1, the rounds of a verdict, or one less.
    fn limit_at_a_verdict(&self, random: &mut Random) -> u64 {
        let Known::Traced(trace) = &self.known else { return 0 };
        let rounds = random.pick(&[trace.outcomes.strong, trace.outcomes.weak]).rounds();
        random.pick(&[0, 1, rounds.saturating_sub(1), rounds])
    }

    /// The product of the two numbers of states; 1 if a text is refused.
    fn product(&self) -> u64 {
        let states = |text: &[u8]| read(text).map_or(1, |model| model.last().states);
        states(&self.left) * states(&self.right)
    }
}

/// A pair of any sort, most with an enabling or disabling; in one of eight a text is likely refused.
pub fn any_pair(random: &mut Random) -> Pair {
    let budget = random.pick(&[2, 3, 4, 5, 6]);
    let (left, right) = match random.below(128) {
        0 | 1 => pair(random, 9),
        2 | 3 => chain_pair(random),
        4 | 5 => wide_pair(random),
        6..=63 => pair(random, budget),
        _ => sequenced_pair(random, budget + 1),
    };
    let (mut left, mut right) = (text(&left), text(&right));
    match random.below(24) {
        0 => left = malformed(random),
        1 => right = malformed(random),
        2 => (left, right) = (malformed(random), malformed(random)),
        _ => {}
    }
    Pair::new(left, right)
}

/// A pair of small accepted models and a call after which all look-ups are made; by some a mode has no verdict.
pub fn shown(random: &mut Random) -> (Pair, Call) {
    let budget = random.pick(&[2, 2, 3, 3, 3, 4]);
    let models = pair(random, budget);
    shown_after(random, models)
}

/// The same of a pair that has an enabling or disabling.
pub fn sequenced(random: &mut Random) -> (Pair, Call) {
    let budget = random.pick(&[3, 4, 4, 5, 6, 7]);
    let models = sequenced_pair(random, budget);
    shown_after(random, models)
}

fn shown_after(random: &mut Random, (left, right): (Vec<Frame>, Vec<Frame>)) -> (Pair, Call) {
    let pair = Pair::new(text(&left), text(&right));
    let call = if random.once_in(2) { early(random, &pair) } else { fitting(random, &pair) };
    (pair, call)
}

/// Two texts with a call without a limit, and one by a limit at which a mode may have no verdict.
pub struct Compared {
    pub pair: Pair,
    pub calls: [Call; 2],
}

impl Compared {
    fn new(random: &mut Random, pair: Pair, limit: u64) -> Compared {
        let fits = fitting(random, &pair);
        Compared { pair, calls: [fits.clone(), Call { limit, ..fits }] }
    }
}

/// Comparisons of a model and a reordered one.
pub struct Orders {
    /// The one with the other.
    pub both: Compared,
    /// Each with a third model, by the same limits; fewer than two where there is no room for a list.
    pub beside_third: Vec<Compared>,
}

/// A model and a reordered one, in any order, whose list there is room for; then each beside a third model, mostly one close to
/// them, at times, and where their list is large, a small other one.
pub fn reordered(random: &mut Random) -> Orders {
    loop {
        let Reordered { before, after, .. } = reorder::reordered(random);
        let (left, right) = in_any_order(random, &before, &after);
        let pair = Pair::new(text(left), text(right));
        if pair.has_verdicts() {
            let small = pair.needed() > LARGE || random.once_in(8);
            // Every line of the reordered model is used, so that changes may show.
            let third = if small { model(random, 4) } else { close_to(random, &after) };
            let limit = pair.limit_at_a_verdict(random);
            let both = Compared::new(random, pair, limit);
            return Orders { both, beside_third: beside(random, &third, [&before, &after]) };
        }
    }
}

/// A model after one or two changes, half of the time with another target in one of its triples too.
fn close_to(random: &mut Random, frames: &[Frame]) -> Vec<Frame> {
    let mut changed = (0..1 + random.below(2)).fold(frames.to_vec(), |frames, _| variant(random, &frames));
    if random.once_in(2) {
        redirect_any_triple(random, &mut changed);
    }
    changed
}

/// The two orders beside a third model, both on the same side of it, as far as there is room for their lists.
fn beside(random: &mut Random, third: &[Frame], orders: [&[Frame]; 2]) -> Vec<Compared> {
    let third_left = random.once_in(2);
    let pairs = orders.map(|order| {
        let (left, right) = if third_left { (third, order) } else { (order, third) };
        Pair::new(text(left), text(right))
    });
    let pairs: Vec<Pair> = pairs.into_iter().filter(Pair::has_verdicts).collect();
    let limit = pairs.first().map_or(0, |pair| pair.limit_at_a_verdict(random));
    pairs.into_iter().map(|pair| Compared::new(random, pair, limit)).collect()
}

/// The call without a limit on a table that the list just fits.
pub fn fitting(random: &mut Random, pair: &Pair) -> Call {
    let length = pair.needed() + 2;
    let words = random.pick(&[WORDS, WORDS, WORDS, WORDS + 1, WORDS + 3, 2 * WORDS]);
    Call { limit: u64::MAX, table: [length; 3], work: work(random, length), words }
}

/// A call by which a mode likely has no verdict, on a table that the list just fits.
fn early(random: &mut Random, pair: &Pair) -> Call {
    let limit = pair.early_limit(random);
    Call { limit, table: [pair.needed_by(limit) + 2; 3], ..fitting(random, pair) }
}

/// Fitting and just not fitting, a limit at an edge, one call more of any sort, and a table at the end of each stage.
pub fn calls(random: &mut Random, pair: &Pair) -> Vec<Call> {
    let length = pair.needed() + 2;
    let fits = fitting(random, pair);
    let full = Call { table: [length - 1; 3], work: work(random, length), ..fits.clone() };
    let early = pair.early_limit(random);
    let limit = random.pick(&[0, 1, 2, early, early, pair.product(), u64::MAX]);
    let limited = Call { limit, work: work(random, length), ..fits.clone() };
    let any = other(random, pair, &limited);
    let mut calls = vec![fits, full, limited, any];
    calls.extend(at_stages(random, pair));
    calls
}

/// For each of the three numbers a table with room for so many nodes, one less or one more, all by one limit.
fn at_stages(random: &mut Random, pair: &Pair) -> [Call; 3] {
    let early = pair.early_limit(random);
    let limit = random.pick(&[0, 1, early, u64::MAX, u64::MAX]);
    let most = if pair.has_verdicts() { MAX_TABLE } else { ROOM + 2 };
    pair.stages(limit).map(|number| {
        let length = (number + 1 + random.below(3)).min(most);
        Call { limit, table: [length; 3], work: work(random, length), words: WORDS }
    })
}

/// The length of the work slice: none, one, odd and large.
/// A large list takes long with little work memory, so it seldom or never has less than two words an entry.
pub fn work(random: &mut Random, length: usize) -> usize {
    let odd = 2 * random.below(length) + 1;
    let enough = 2 * length + 2;
    let large = 4 * length + random.below(1000);
    if length <= 400 || length <= 2000 && random.once_in(16) {
        random.pick(&[0, 1, odd, length, large])
    } else {
        random.pick(&[enough, enough | 1, large])
    }
}

/// A longer table, a table that a limited list just fits or not, a call that refusal 7 is due of, or too few words, at times also where 7 would
/// be due.
fn other(random: &mut Random, pair: &Pair, call: &Call) -> Call {
    let mut other = call.clone();
    match random.below(8) {
        0 => other.table = [random.below(2); 3],
        1 => other.table = unequal(random, call.table[0]),
        2 => {
            other.words = random.below(WORDS);
            if random.once_in(2) {
                other.table = unequal(random, call.table[0]);
            }
        }
        3 => other.table = long(random, pair),
        4 if pair.has_verdicts() => other.table = [call.table[0] + random.below(1000); 3],
        _ => other.table = at_limit(random, pair, call),
    }
    other
}

/// One of the three slices is of another length.
fn unequal(random: &mut Random, length: usize) -> [usize; 3] {
    let mut table = [length; 3];
    table[random.below(3)] = random.pick(&[0, 1, 2, length - 1, length + 1, 2 * length + 1]);
    table
}

/// At times the longest table, or one that is too long by an entry.
fn long(random: &mut Random, pair: &Pair) -> [usize; 3] {
    match random.below(32) {
        0 if pair.has_verdicts() => [MAX_TABLE; 3],
        1 => [MAX_TABLE + 1; 3],
        2 => [MAX_TABLE, MAX_TABLE + 1, MAX_TABLE],
        _ => [pair.needed() + 2; 3],
    }
}

/// What the list up to the call's limit needs, or an entry less.
fn at_limit(random: &mut Random, pair: &Pair, call: &Call) -> [usize; 3] {
    if matches!(pair.known, Known::Refused(_)) {
        return [2 + random.below(100); 3];
    }
    [pair.needed_by(call.limit) + 1 + random.below(2); 3]
}

#[cfg(test)]
mod tests {
    use super::*;
    use crate::answer::compare;

    #[test]
    fn traced_answers_are_those_of_a_comparison() {
        for case in 0..400 {
            let mut random = Random::of_case(29, case);
            let pair = any_pair(&mut random);
            for call in calls(&mut random, &pair) {
                let [level, low, high] = call.table;
                let direct = compare(&pair.left, &pair.right, call.limit, (level, low, high));
                let expected = call.expected(&pair.known);
                assert_eq!(expected, (call.words >= WORDS).then_some(direct), "{call:?}");
            }
        }
    }
}
