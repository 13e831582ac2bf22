//! What a comparison answers: two verdicts, where the nodes went, and the roots of what the table shows.

use crate::ffi;
use crate::model::Model;
use crate::nodes::Nodes;
use crate::refusal::Refusal;
use crate::steps::Steps;
use crate::table::{Root, Table};

/// Which of the two verdicts, by the kind of answer to a step.
#[derive(Clone, Copy, Debug, PartialEq, Eq)]
pub enum Mode {
    /// One step with the same action.
    Strong,
    /// The same action with any internal steps before and after it; to an internal step, zero or more internal steps.
    Weak,
}

/// A verdict, strong or weak. `match` tells all three cases apart; a verdict that is not equal need not be different:
///
/// ```
/// # use seipolku::{Table, Verdict};
/// # let mut table = Table::new(4096).unwrap();
/// let compared = table.compare(b"000101\n", b"000101\n", 0).unwrap();
/// match compared.weak {
///     Verdict::Equal { rounds, .. } => println!("equal after {rounds} rounds"),
///     Verdict::Different { rounds } => println!("different after {rounds} rounds"),
///     Verdict::Undecided => println!("the limit is too small"),
/// }
/// assert!(!compared.weak.equal() && !compared.weak.different());
/// ```
///
/// It borrows the table that its bisimulation stands in:
///
/// ```compile_fail,E0499
/// # use seipolku::Table;
/// # let mut table = Table::new(4096).unwrap();
/// let strong = table.compare(b"000101\n", b"000101\n", 9).unwrap().strong;
/// let other = table.compare(b"000102\n", b"000102\n", 9).unwrap();
/// strong.related(0, 0).unwrap();
/// ```
#[derive(Clone, Copy, Debug)]
pub enum Verdict<'t> {
    /// Some bisimulation relates the starts. `largest` is the root of the largest one.
    Equal { rounds: u64, largest: Root<'t> },
    /// No bisimulation relates the starts.
    Different { rounds: u64 },
    /// No verdict by the limit of rounds: document 01's 9, in the place of this verdict alone.
    Undecided,
}

impl<'t> Verdict<'t> {
    /// The verdict that three words of an answer tell.
    fn of(table: &'t Table, verdict: u64, rounds: u64, entry: u64) -> Verdict<'t> {
        match verdict {
            ffi::EQUAL => Verdict::Equal { rounds, largest: Root { table, entry } },
            ffi::DIFFERENT => Verdict::Different { rounds },
            _ => Verdict::Undecided,
        }
    }

    /// Whether a bisimulation of this kind relates the starts; false also where no verdict fell.
    pub fn equal(&self) -> bool {
        matches!(self, Verdict::Equal { .. })
    }

    /// Whether none does; false also where no verdict fell.
    pub fn different(&self) -> bool {
        matches!(self, Verdict::Different { .. })
    }

    /// The rounds after which the verdict fell; nothing where there is none by the limit.
    pub fn rounds(&self) -> Option<u64> {
        match self {
            Verdict::Equal { rounds, .. } | Verdict::Different { rounds } => Some(*rounds),
            Verdict::Undecided => None,
        }
    }

    /// The root of the largest bisimulation, where the models are equal.
    pub fn largest(&self) -> Option<Root<'t>> {
        match self {
            Verdict::Equal { largest, .. } => Some(*largest),
            _ => None,
        }
    }

    /// Whether the largest bisimulation holds the pair of states; nothing where the models are not equal, since the table then shows no
    /// bisimulation of this kind. Codes are those of the models, 0 to 2^bits - 1, of which those that are no state's are in no pair; one of
    /// `CODES` or more is refused with 10.
    pub fn related(&self, left: u64, right: u64) -> Result<Option<bool>, Refusal> {
        self.largest().map(|root| root.look_up(0, [left, 0, right, 0])).transpose()
    }
}

/// The slots of the now codes.
const LEFT_NOW: u32 = 0;
const RIGHT_NOW: u32 = 3;

/// Both verdicts of a comparison, with the roots of what its table shows. Roots and steps are there whatever the verdicts are, also where
/// neither fell by the limit.
#[derive(Clone, Copy, Debug)]
pub struct Comparison<'t> {
    /// The relation of the left model: its derived steps, where the now code is a state's.
    pub left: Root<'t>,
    /// The relation of the right model.
    pub right: Root<'t>,
    /// The verdict by single steps.
    pub strong: Verdict<'t>,
    /// The verdict by weak answers.
    pub weak: Verdict<'t>,
    /// The nodes that both verdicts needed together, and where they went. They belong to the whole call, and not to one verdict.
    pub nodes: Nodes,
}

impl<'t> Comparison<'t> {
    /// The comparison that the words of an answer tell.
    pub(crate) fn of(table: &'t Table, answer: [u64; ffi::ANSWER_WORDS]) -> Comparison<'t> {
        let root = |entry| Root { table, entry };
        Comparison {
            left: root(answer[0]),
            right: root(answer[1]),
            strong: Verdict::of(table, answer[2], answer[3], answer[4]),
            weak: Verdict::of(table, answer[5], answer[6], answer[7]),
            nodes: Nodes::of(&answer),
        }
    }

    pub fn verdict(&self, mode: Mode) -> Verdict<'t> {
        match mode {
            Mode::Strong => self.strong,
            Mode::Weak => self.weak,
        }
    }

    /// Whether the left model has the step with this action from the state `now` to the state `next`: where the now code is a state's,
    /// as the operators' rules derive it.
    pub fn left_steps(&self, action: u64, now: u64, next: u64) -> Result<bool, Refusal> {
        self.left.look_up(action, [now, next, 0, 0])
    }

    /// The same of the right model.
    pub fn right_steps(&self, action: u64, now: u64, next: u64) -> Result<bool, Refusal> {
        self.right.look_up(action, [0, 0, now, next])
    }

    /// All steps of the left model, which is the one given, from the state `now`, in no order. A code that is no state's
    /// ([`Layout::is_state`](crate::Layout::is_state)) may have more than the operators' rules derive. Refused with 10 where `now` has more
    /// bits than the model.
    ///
    /// ```
    /// # use seipolku::{model, Table};
    /// let text = b"000102000201\n";
    /// let mut table = Table::new(4096).unwrap();
    /// let compared = table.compare(text, text, 9).unwrap();
    /// let steps: Vec<(u64, u64)> = compared.left_steps_from(0, &model(text).unwrap()).unwrap().collect();
    /// assert_eq!(steps, [(2, 1)]);
    /// ```
    pub fn left_steps_from(&self, now: u64, model: &Model) -> Result<Steps<'t>, Refusal> {
        self.left.steps(LEFT_NOW, now, model)
    }

    /// The same of the right model.
    pub fn right_steps_from(&self, now: u64, model: &Model) -> Result<Steps<'t>, Refusal> {
        self.right.steps(RIGHT_NOW, now, model)
    }
}
