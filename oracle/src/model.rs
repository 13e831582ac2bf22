//! Accepted models.

pub const TAU: u8 = 0;
/// The termination event (ISO 8807's δ): the only action of its channel, which no list and no relabelling names.
pub const EXIT: u8 = 62;
pub const EXIT_CHANNEL: u8 = 31;
/// Lists and relabellings name the channels from 1 up to this one.
pub const MOST_CHANNEL: u8 = 30;
pub const MAX_LINES: usize = 64;
/// The most bits of a line's process; codes and levels of a look-up end with it.
pub const MAX_BITS: u32 = 24;
pub const MAX_USES: u32 = 64;

/// A set of channels, one bit a channel: those that a list names, and in the formula of joint also exit's.
#[derive(Clone, Copy, Debug, Default, PartialEq, Eq)]
pub struct Channels(pub u32);

impl Channels {
    pub fn single(channel: u8) -> Self {
        Channels(1 << channel)
    }

    pub fn with(self, channel: u8) -> Self {
        Channels(self.0 | 1 << channel)
    }

    /// τ lies on no channel: it would be channel 0, which no list holds.
    pub fn has_action(self, action: u8) -> bool {
        self.0 >> (action / 2) & 1 == 1
    }
}

impl FromIterator<u8> for Channels {
    fn from_iter<I: IntoIterator<Item = u8>>(channels: I) -> Self {
        Channels(channels.into_iter().fold(0, |set, c| set | 1 << c))
    }
}

#[derive(Clone, Copy, Debug, PartialEq, Eq)]
pub struct Triple {
    pub from: u8,
    pub action: u8,
    pub to: u8,
}

/// A line's process; operands are numbers of earlier lines. An enabling is its first operand until that exits, and then the
/// second; a disabling its first, until that exits or the second takes a step.
#[derive(Clone, Debug, PartialEq, Eq)]
pub enum Process {
    Leaf { states: u8, triples: Vec<Triple> },
    Compose(usize, usize),
    Restrict(usize, Channels),
    Relabel { operand: usize, old: u8, new: u8 },
    Hide(usize, Channels),
    Joint(usize, usize, Channels),
    Enable(usize, usize),
    Disable(usize, usize),
}

impl Process {
    pub fn operands(&self) -> Vec<usize> {
        match *self {
            Process::Leaf { .. } => vec![],
            Process::Restrict(i, _) | Process::Hide(i, _) => vec![i],
            Process::Relabel { operand, .. } => vec![operand],
            Process::Compose(i, j)
            | Process::Joint(i, j, _)
            | Process::Enable(i, j)
            | Process::Disable(i, j) => vec![i, j],
        }
    }

    /// The bits below its operands' that say which of them are alive.
    pub fn added_bits(&self) -> u32 {
        match self {
            Process::Enable(..) => 1,
            Process::Disable(..) => 2,
            _ => 0,
        }
    }
}

/// Number of bits for the states 0 to `states` − 1.
pub fn width(states: u8) -> u32 {
    u8::BITS - (states - 1).leading_zeros()
}

#[derive(Clone, Debug)]
pub struct Line {
    pub process: Process,
    pub bits: u32,
    /// Leaf uses.
    pub uses: u32,
    /// At most 2^`MAX_BITS` in an accepted model.
    pub states: u64,
}

impl Line {
    /// A line whose operands are among the earlier ones.
    pub fn new(process: Process, earlier: &[Line]) -> Line {
        if let Process::Leaf { states, .. } = process {
            return Line { process, bits: width(states), uses: 1, states: states.into() };
        }
        let operands: Vec<&Line> = process.operands().into_iter().map(|i| &earlier[i]).collect();
        let bits = process.added_bits() + operands.iter().map(|line| line.bits).sum::<u32>();
        let uses = operands.iter().map(|line| line.uses).sum();
        let states = match process {
            Process::Enable(..) => operands[0].states + operands[1].states,
            Process::Disable(..) => 2 * operands[0].states + operands[1].states,
            _ => operands.iter().map(|line| line.states).product(),
        };
        Line { process, bits, uses, states }
    }
}

/// One or more lines; the last one's process is the model.
#[derive(Clone, Debug, Default)]
pub struct Model {
    pub lines: Vec<Line>,
}

impl Model {
    pub fn last(&self) -> &Line {
        self.lines.last().expect("an accepted model has a line")
    }

    /// For each line, whether the last line uses it, directly or not.
    pub fn used(&self) -> Vec<bool> {
        let mut used = vec![false; self.lines.len()];
        *used.last_mut().expect("an accepted model has a line") = true;
        for number in (0..self.lines.len()).rev() {
            if used[number] {
                for operand in self.lines[number].process.operands() {
                    used[operand] = true;
                }
            }
        }
        used
    }
}
