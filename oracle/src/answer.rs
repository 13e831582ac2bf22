//! The complete answer of a comparison.

use std::fmt;

use crate::bisim::{self, Mode, Outcome};
use crate::list::{self, Nodes, Outcomes, Trace};
use crate::model::Model;
use crate::reader::{self, Refusal};
use crate::steps::{self, Step};

pub const MAX_TABLE: usize = 1 << 20;

/// The words of the exported call's answer.
pub const WORDS: usize = 12;

#[derive(Clone, Copy, Debug, PartialEq, Eq)]
pub enum Answer {
    /// A verdict for each mode, or none by the limit, and the nodes of the joined list.
    Given { strong: Outcome, weak: Outcome, nodes: Nodes },
    /// Refusal 8: the joined list does not fit. Each number is at most the table's room.
    Full { nodes: Nodes },
    /// Refusals 1 to 7.
    Refused { number: u8, side: u8, line: usize },
}

/// What stands in the place of a verdict that does not fall by the limit.
const UNDECIDED: &str = "refused 9 2 0";

/// What stands before the numbers of refusal 8, and alone in the program's lines.
const FULL: &str = "refused 8 2 0";

/// A verdict's place in an answer.
fn place(outcome: Outcome) -> String {
    match outcome {
        Outcome::Undecided => UNDECIDED.to_string(),
        verdict => verdict.to_string(),
    }
}

fn read_place(words: &str) -> Option<Outcome> {
    match words.split_once(' ')? {
        ("equal", rounds) => Some(Outcome::Equal(rounds.parse().ok()?)),
        ("different", rounds) => Some(Outcome::Different(rounds.parse().ok()?)),
        _ => (words == UNDECIDED).then_some(Outcome::Undecided),
    }
}

fn read_nodes(words: &str) -> Option<Nodes> {
    let numbers: Vec<usize> = words.split(' ').map(|number| number.parse().ok()).collect::<Option<_>>()?;
    let &[relations, answers, whole] = numbers.as_slice() else { return None };
    Some(Nodes { relations, answers, whole })
}

fn read_given([strong, weak, nodes]: [&str; 3]) -> Option<Answer> {
    let strong = read_place(strong.strip_prefix("strong ")?)?;
    let weak = read_place(weak.strip_prefix("weak ")?)?;
    Some(Answer::Given { strong, weak, nodes: read_nodes(nodes)? })
}

fn read_refused(words: &str) -> Option<Answer> {
    let numbers: Vec<&str> = words.strip_prefix("refused ")?.split(' ').collect();
    let &[number, side, line] = numbers.as_slice() else { return None };
    let number = number.parse().ok().filter(|number| (1..=7).contains(number))?;
    let side = side.parse().ok().filter(|side| (0..=2).contains(side))?;
    Some(Answer::Refused { number, side, line: line.parse().ok()? })
}

impl std::str::FromStr for Answer {
    type Err = ();

    fn from_str(words: &str) -> Result<Answer, ()> {
        let answer = match *words.split(" | ").collect::<Vec<_>>() {
            [strong, weak, nodes] => read_given([strong, weak, nodes]),
            [FULL, nodes] => read_nodes(nodes).map(|nodes| Answer::Full { nodes }),
            [refused] => read_refused(refused),
            _ => None,
        };
        answer.ok_or(())
    }
}

impl fmt::Display for Answer {
    fn fmt(&self, f: &mut fmt::Formatter) -> fmt::Result {
        match *self {
            Answer::Given { strong, weak, nodes } => {
                write!(f, "strong {} | weak {} | {nodes}", place(strong), place(weak))
            }
            Answer::Full { nodes } => write!(f, "{FULL} | {nodes}"),
            Answer::Refused { number, side, line } => write!(f, "refused {number} {side} {line}"),
        }
    }
}

impl Answer {
    /// Of a list that there is room for.
    fn given(Outcomes { strong, weak }: Outcomes, nodes: Nodes) -> Answer {
        Answer::Given { strong, weak, nodes }
    }

    /// Of a list that there is no room for: a number above the room is given as the room.
    fn full(Nodes { relations, answers, whole }: Nodes, room: usize) -> Answer {
        let [relations, answers, whole] = [relations, answers, whole].map(|number| number.min(room));
        Answer::Full { nodes: Nodes { relations, answers, whole } }
    }

    /// What the program prints of each mode, strong first, after the mode's name.
    pub fn lines(&self) -> [String; 2] {
        match *self {
            Answer::Given { strong, weak, nodes } => [strong, weak].map(|outcome| match outcome {
                Outcome::Undecided => place(outcome),
                verdict => format!("{verdict} {}", nodes.whole),
            }),
            Answer::Full { .. } => [FULL, FULL].map(String::from),
            refused => [refused.to_string(), refused.to_string()],
        }
    }
}

pub const UNFIT: Answer = Answer::Refused { number: 7, side: 2, line: 0 };

/// An answer, and whether the explicit states gave its verdicts too.
#[derive(Clone, Copy, Debug, PartialEq, Eq)]
pub struct Checked {
    pub answer: Answer,
    pub explicit: bool,
}

/// What is known of two texts, whatever limit and table.
#[derive(Clone, Debug)]
pub enum Known {
    Refused(Answer),
    Traced(Trace),
}

/// Reads the texts and evaluates the joined list, as far as there is room.
/// Where the explicit states give verdicts too, they have to be the same.
pub fn known(left: &[u8], right: &[u8], room: usize) -> Known {
    let (left, right) = match read_both(left, right) {
        Ok(models) => models,
        Err(answer) => return Known::Refused(answer),
    };
    let trace = list::trace(&left, &right, room);
    let last = trace.whole.len().saturating_sub(1) as u64;
    if let Some(by_pairs) = decide_both(&left, &right, if trace.full { last } else { u64::MAX }) {
        assert_eq!(by_pairs, trace.outcomes, "explicit pairs and list disagree");
    }
    Known::Traced(trace)
}

impl Trace {
    /// The answer by this limit on a table of this length, which is at least 2;
    /// if the list ended without room, it is not longer than that room and 2.
    pub fn answer(&self, limit: u64, length: usize) -> Answer {
        let nodes = self.by(limit);
        if nodes.whole > length - 2 {
            return Answer::full(nodes, length - 2);
        }
        let Outcomes { strong, weak } = self.outcomes;
        Answer::given(Outcomes { strong: strong.by(limit), weak: weak.by(limit) }, nodes)
    }
}

/// Compares two texts; `lens` are the lengths of the three table slices.
pub fn compare(left: &[u8], right: &[u8], limit: u64, lens: (usize, usize, usize)) -> Answer {
    compare_checked(left, right, limit, lens).answer
}

pub fn compare_checked(left: &[u8], right: &[u8], limit: u64, lens: (usize, usize, usize)) -> Checked {
    let refused = |answer| Checked { answer, explicit: false };
    if !table_fits(lens) {
        return refused(UNFIT);
    }
    match read_both(left, right) {
        Ok((left, right)) => compare_models(&left, &right, limit, lens.0 - 2),
        Err(answer) => refused(answer),
    }
}

pub fn table_fits((level, low, high): (usize, usize, usize)) -> bool {
    level == low && low == high && (2..=MAX_TABLE).contains(&level)
}

/// What is told of a text: 0 with its model's bits, its lines, its model's leaf uses and states, or 2 with the refusal's number,
/// side (0, as for a left text) and line; then six words, those without a meaning 0.
pub fn told(read: &Result<Model, Refusal>) -> [u64; 7] {
    match read {
        Ok(model) => {
            let last = model.last();
            [0, last.bits.into(), model.lines.len() as u64, last.uses.into(), last.states, 0, 0]
        }
        Err(refusal) => [2, refusal.number.into(), 0, refusal.line as u64, 0, 0, 0],
    }
}

/// Both models, or the refusal that is due, the left text's first.
fn read_both(left: &[u8], right: &[u8]) -> Result<(Model, Model), Answer> {
    let side = |text, side| {
        reader::read(text).map_err(|Refusal { number, line }| Answer::Refused { number, side, line })
    };
    Ok((side(left, 0)?, side(right, 1)?))
}

/// Verdicts and rounds of the explicit pairs if there are few enough, else of the list.
/// Where both are known they have to be the same.
pub fn compare_models(left: &Model, right: &Model, limit: u64, room: usize) -> Checked {
    let (by_list, nodes) = match list::evaluate(left, right, limit, room) {
        Ok(evaluated) => evaluated,
        Err(nodes) => return Checked { answer: Answer::full(nodes, room), explicit: false },
    };
    let by_pairs = decide_both(left, right, limit);
    if let Some(outcomes) = by_pairs {
        assert_eq!(outcomes, by_list, "explicit pairs and list disagree");
    }
    Checked { answer: Answer::given(by_pairs.unwrap_or(by_list), nodes), explicit: by_pairs.is_some() }
}

/// The explicit verdicts of both modes; none if the models are too large.
fn decide_both(left: &Model, right: &Model, limit: u64) -> Option<Outcomes> {
    let (left, right) = (steps::derive(left)?, steps::derive(right)?);
    let decide = |mode| bisim::decide(&left, &right, mode, limit);
    Some(Outcomes { strong: decide(Mode::Strong)?, weak: decide(Mode::Weak)? })
}

/// The explicit verdict of one mode; none if the models are too large.
pub fn decide(left: &Model, right: &Model, mode: Mode, limit: u64) -> Option<Outcome> {
    bisim::decide(&steps::derive(left)?, &steps::derive(right)?, mode, limit)
}

/// The derived steps, ascending; none if the model is too large.
pub fn steps(model: &Model) -> Option<Vec<Step>> {
    steps::derive(model).map(|system| system.steps)
}

/// The largest bisimulation as ascending pairs of codes; none if the models are too large.
pub fn largest(left: &Model, right: &Model, mode: Mode) -> Option<Vec<(u32, u32)>> {
    bisim::largest(&steps::derive(left)?, &steps::derive(right)?, mode)
}
