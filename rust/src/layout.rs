//! How a state's code is laid out: which bits hold the state of which leaf, and which tell the operands that are alive.

use crate::frames::{Frame, MOST_USES};
use crate::limits::MAX_BITS;

/// One use of a leaf, and which bits of a state's code hold its state.
#[derive(Clone, Copy, Debug, PartialEq, Eq)]
pub struct LeafUse {
    /// The line of the leaf.
    pub line: usize,
    pub states: u64,
    /// Its lowest bit.
    pub shift: u32,
    /// How many bits it has; none for a leaf of one state.
    pub width: u32,
}

impl LeafUse {
    /// The leaf's state in a code; 0 where the leaf belongs to an operand that waits or is dropped.
    pub fn state(&self, code: u64) -> u64 {
        bits_of(code, self.shift, self.width)
    }
}

/// The layout of a process in the state codes of the whole model: it has the bits from `shift` on.
#[derive(Clone, Debug, PartialEq, Eq)]
pub struct Layout {
    /// The lowest bit.
    pub shift: u32,
    /// How many bits there are, with those that enablings and disablings add.
    pub bits: u32,
    /// How many leaves are used, each use counted.
    pub uses: usize,
    /// How many states there are, reachable or not.
    pub states: u64,
    pub form: Form,
}

/// What the bits hold.
#[derive(Clone, Debug, PartialEq, Eq)]
pub enum Form {
    Leaf(LeafUse),
    /// What the operator adds in the lowest bits, then the first operand, then the second.
    Over(Operator, Box<[Layout; 2]>),
}

/// How the states of two operands are joined. The bits that an operator adds hold a number.
#[derive(Clone, Copy, Debug, PartialEq, Eq)]
pub enum Operator {
    /// Compose and joint: a state of each operand.
    Both,
    /// 0: a state of the first, while the second waits; 1: a state of the second. The other one's code is 0.
    Enable,
    /// 0: both are alive, and the second is at its start; 1: a state of the second alone; 2: a state of the first alone. The code of the
    /// one that is dropped is 0.
    Disable,
}

/// What an operand's bits hold.
#[derive(Clone, Copy, PartialEq, Eq)]
enum Held {
    /// Any of its states.
    State,
    /// Its start, code 0.
    Start,
    /// 0: it waits or is dropped.
    Nothing,
}

impl Operator {
    /// How many bits are added to those of the operands.
    pub fn added(self) -> u32 {
        match self {
            Operator::Both => 0,
            Operator::Enable => 1,
            Operator::Disable => 2,
        }
    }

    /// How many states there are over operands with so many.
    fn states(self, first: u64, second: u64) -> u64 {
        match self {
            Operator::Both => first * second,
            Operator::Enable => first + second,
            Operator::Disable => 2 * first + second,
        }
    }

    /// What the bits of the first and of the second hold beside a number in the added bits; nothing for one that no state has.
    fn held(self, number: u64) -> Option<[Held; 2]> {
        match (self, number) {
            (Operator::Both, _) => Some([Held::State, Held::State]),
            (Operator::Enable, 0) | (Operator::Disable, 2) => Some([Held::State, Held::Nothing]),
            (Operator::Enable | Operator::Disable, 1) => Some([Held::Nothing, Held::State]),
            (Operator::Disable, 0) => Some([Held::State, Held::Start]),
            _ => None,
        }
    }
}

/// The bits of the largest line over accepted ones; the work on others ends here.
const MOST_BITS: u32 = 2 * MAX_BITS + 2;

impl Layout {
    /// The layout of the last line's process; nothing where an operand is no earlier line, or for more bits or uses than a line over
    /// accepted ones has.
    pub(crate) fn of(frames: &[Frame]) -> Option<Layout> {
        let mut room = 2 * MOST_USES;
        Layout::at(frames, frames.len().checked_sub(1)?, 0, &mut room)
    }

    /// The layout of a line's process from a bit on; `room` is how many leaves may still be used.
    fn at(frames: &[Frame], line: usize, shift: u32, room: &mut usize) -> Option<Layout> {
        let operand = |i: &u8| Some(usize::from(*i)).filter(|i| *i < line);
        let (operator, [i, j]) = match frames.get(line)? {
            Frame::Leaf { states, .. } => {
                *room = room.checked_sub(1)?;
                return Some(Layout::leaf(line, *states, shift));
            }
            Frame::Restrict(i, _) | Frame::Hide(i, _) | Frame::Relabel { of: i, .. } => {
                return Layout::at(frames, operand(i)?, shift, room);
            }
            Frame::Compose(i, j) | Frame::Joint(i, j, _) => (Operator::Both, [i, j]),
            Frame::Enable { first, second } => (Operator::Enable, [first, second]),
            Frame::Disable { first, second } => (Operator::Disable, [first, second]),
        };
        let first = Layout::at(frames, operand(i)?, shift + operator.added(), room)?;
        let second = Layout::at(frames, operand(j)?, first.shift + first.bits, room)?;
        let bits = operator.added() + first.bits + second.bits;
        if bits > MOST_BITS {
            return None;
        }
        let states = operator.states(first.states, second.states);
        let uses = first.uses + second.uses;
        Some(Layout { shift, bits, uses, states, form: Form::Over(operator, Box::new([first, second])) })
    }

    fn leaf(line: usize, states: u8, shift: u32) -> Layout {
        let width = u8::BITS - states.saturating_sub(1).leading_zeros();
        let states = u64::from(states);
        let form = Form::Leaf(LeafUse { line, states, shift, width });
        Layout { shift, bits: width, uses: 1, states, form }
    }

    /// The leaf uses, lowest bits first.
    pub fn leaves(&self) -> Vec<LeafUse> {
        match &self.form {
            Form::Leaf(leaf) => vec![*leaf],
            Form::Over(_, operands) => operands.iter().flat_map(Layout::leaves).collect(),
        }
    }

    /// The bits that tell which operands are alive.
    pub fn added(&self) -> u32 {
        match &self.form {
            Form::Leaf(_) => 0,
            Form::Over(operator, operands) => {
                operator.added() + operands.iter().map(Layout::added).sum::<u32>()
            }
        }
    }

    /// Which leaf uses are alive in a state, in the order of [`leaves`](Layout::leaves); nothing for a code that is no state's. A leaf of
    /// an operand that waits or is dropped is not alive.
    pub fn alive(&self, code: u64) -> Option<Vec<bool>> {
        let mut alive = Vec::new();
        let outside = code != bits_of(code, self.shift, self.bits) << self.shift;
        (!outside && self.mark(code, &mut alive)).then_some(alive)
    }

    /// Whether some state has the code.
    pub fn is_state(&self, code: u64) -> bool {
        self.alive(code).is_some()
    }

    /// Notes which leaf uses are alive, and says whether these bits of the code are a state's.
    fn mark(&self, code: u64, alive: &mut Vec<bool>) -> bool {
        let Form::Over(operator, operands) = &self.form else {
            alive.push(true);
            return bits_of(code, self.shift, self.bits) < self.states;
        };
        let Some(held) = operator.held(bits_of(code, self.shift, operator.added())) else { return false };
        operands.iter().zip(held).all(|(operand, held)| {
            if held == Held::Nothing {
                alive.resize(alive.len() + operand.uses, false);
            }
            (held == Held::State || bits_of(code, operand.shift, operand.bits) == 0)
                && (held == Held::Nothing || operand.mark(code, alive))
        })
    }

    /// The codes of all states, ascending.
    pub fn codes(&self) -> Vec<u64> {
        let Form::Over(operator, operands) = &self.form else {
            return (0..self.states).map(|state| state << self.shift).collect();
        };
        let all = [operands[0].codes(), operands[1].codes()];
        let mut codes = Vec::new();
        for number in 0..1 << operator.added() {
            let Some(held) = operator.held(number) else { continue };
            let [first, second] = [0, 1].map(|k| if held[k] == Held::State { &all[k][..] } else { &[0] });
            let number = number << self.shift;
            codes.extend(second.iter().flat_map(|high| first.iter().map(move |low| high | low | number)));
        }
        codes.sort_unstable();
        codes
    }
}

impl Default for Layout {
    /// That of a leaf of one state.
    fn default() -> Layout {
        Layout::leaf(0, 1, 0)
    }
}

/// So many bits of a code, from one on.
fn bits_of(code: u64, shift: u32, width: u32) -> u64 {
    let ones = 1u64.checked_shl(width).unwrap_or(0).wrapping_sub(1);
    code.checked_shr(shift).unwrap_or(0) & ones
}
