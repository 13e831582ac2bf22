//! Refusals, by document 01's numbers and in words.

use crate::ffi;
use crate::frames::MOST_USES;
use crate::limits::MAX_BITS;
use crate::nodes::Nodes;
use std::fmt;

/// Which text a refusal speaks of.
#[derive(Clone, Copy, Debug, PartialEq, Eq)]
pub enum Side {
    Left,
    Right,
    Neither,
}

/// What is wrong, by document 01's numbers. 9 is not among them: it stands in the place of a verdict, as
/// [`Verdict::Undecided`](crate::Verdict::Undecided).
#[derive(Clone, Copy, Debug, PartialEq, Eq)]
pub enum Fault {
    /// 1: an empty text, a byte that is no digit, an odd number of digits, or a line without its end.
    Digits,
    /// 2: a frame of fewer than 2 or more than 255 bytes.
    Size,
    /// 3: byte 0 is not the line's number, or there is a line 64.
    LineNumber,
    /// 4: an unknown kind, or a length that its kind can't have.
    Kind,
    /// 5: a state count, state, action, channel or operand out of range; so are action 63 and, in a list or relabelling, channel 31.
    Range,
    /// 6: more than [`MAX_BITS`] bits or 64 leaf uses.
    Limits,
    /// 7: a table that does not fit.
    Table,
    /// 8: the nodes that both verdicts need together do not fit; and where those went that do.
    Full(Nodes),
    /// 10: a look-up's number out of range, or a walk that leaves the table or its order.
    LookUp,
}

impl Fault {
    /// Document 01's number.
    pub fn number(self) -> u64 {
        match self {
            Fault::Digits => 1,
            Fault::Size => 2,
            Fault::LineNumber => 3,
            Fault::Kind => 4,
            Fault::Range => 5,
            Fault::Limits => 6,
            Fault::Table => 7,
            Fault::Full(_) => 8,
            Fault::LookUp => 10,
        }
    }

    /// The fault of any number but 8, which comes with nodes.
    pub(crate) fn of(number: u64) -> Fault {
        match number {
            1 => Fault::Digits,
            2 => Fault::Size,
            3 => Fault::LineNumber,
            4 => Fault::Kind,
            5 => Fault::Range,
            6 => Fault::Limits,
            7 => Fault::Table,
            _ => Fault::LookUp,
        }
    }

    fn words(self) -> String {
        let words = match self {
            Fault::Digits => "not hexadecimal capitals, two digits a byte, in an ended line",
            Fault::Size => "a frame has 2 to 255 bytes",
            Fault::LineNumber => "byte 0 is not the line's number, or there are more than 64 lines",
            Fault::Kind => "an unknown kind, or a length that its kind can't have",
            Fault::Range => "a state count, state, action, channel or operand is out of range",
            Fault::Limits => {
                return format!("the line's process has more than {MAX_BITS} bits or {MOST_USES} leaf uses")
            }
            Fault::Table => "the table does not fit",
            Fault::Full(Nodes { relations, answers, whole }) => {
                return format!(
                    "the comparison needs more nodes than the {whole} that fit into the table; \
                     of these {relations} are of the relations, and {answers} of the relations and the weak answers"
                )
            }
            Fault::LookUp => "a number out of range, or a walk that leaves the table",
        };
        words.to_string()
    }
}

/// A refusal: what is wrong, in which text, at which line (counted from 0).
#[derive(Clone, Copy, Debug, PartialEq, Eq)]
pub struct Refusal {
    pub fault: Fault,
    pub side: Side,
    pub line: u64,
}

impl Refusal {
    /// The refusal that the first words of an answer tell, where they do not tell 8.
    pub(crate) fn of(number: u64, side: u64, line: u64) -> Refusal {
        let side = match side {
            0 => Side::Left,
            1 => Side::Right,
            _ => Side::Neither,
        };
        Refusal { fault: Fault::of(number), side, line }
    }

    /// The refusal that the words of a comparison's answer tell.
    pub(crate) fn of_comparison(answer: &[u64; ffi::ANSWER_WORDS]) -> Refusal {
        let [number, side, line, ..] = *answer;
        match number {
            ffi::FULL => Refusal { fault: Fault::Full(Nodes::of(answer)), side: Side::Neither, line },
            _ => Refusal::of(number, side, line),
        }
    }

    /// Where the nodes went, with 8; nothing with another number.
    pub fn nodes(&self) -> Option<Nodes> {
        match self.fault {
            Fault::Full(nodes) => Some(nodes),
            _ => None,
        }
    }
}

impl fmt::Display for Refusal {
    fn fmt(&self, f: &mut fmt::Formatter<'_>) -> fmt::Result {
        let words = self.fault.words();
        match self.side {
            Side::Left => write!(f, "left model, line {}: {words}", self.line),
            Side::Right => write!(f, "right model, line {}: {words}", self.line),
            Side::Neither => f.write_str(&words),
        }
    }
}

impl std::error::Error for Refusal {}
