//! The lines of a model text as values: decoding texts that the library accepted, and encoding.

use crate::layout::Layout;

/// A step of a leaf.
#[derive(Clone, Copy, Debug, PartialEq, Eq)]
pub struct Triple {
    pub from: u8,
    /// 0 for the internal step, [`EXIT`], or 2c for an output and 2c + 1 for an input on a channel c from 1 to [`MOST_CHANNEL`].
    pub action: u8,
    pub to: u8,
}

/// A line. Operands are numbers of earlier lines.
#[derive(Clone, Debug, PartialEq, Eq)]
pub enum Frame {
    Leaf {
        states: u8,
        triples: Vec<Triple>,
    },
    Compose(u8, u8),
    Restrict(u8, Vec<u8>),
    Relabel {
        of: u8,
        old: u8,
        new: u8,
    },
    Hide(u8, Vec<u8>),
    Joint(u8, u8, Vec<u8>),
    /// LOTOS's `first >> second`.
    Enable {
        first: u8,
        second: u8,
    },
    /// LOTOS's `first [> second`.
    Disable {
        first: u8,
        second: u8,
    },
}

/// The lines of a text; the last one's process is the model.
#[derive(Clone, Debug, Default, PartialEq, Eq)]
pub struct Lines {
    pub frames: Vec<Frame>,
}

pub const MOST_LINES: usize = 64;
pub const MOST_STATES: usize = 64;
/// Channels that a list or a relabelling may name go from 1 to this one.
pub const MOST_CHANNEL: u8 = 30;
/// Termination, the event that ISO 8807 (LOTOS) writes δ. Joint takes it on both sides together; compose lets it pass from either side alone.
pub const EXIT: u8 = 62;
/// Its channel, which has no other action, and which no list and no relabelling names.
pub const EXIT_CHANNEL: u8 = EXIT / 2;
pub const MOST_BYTES: usize = 255;
/// Triples of one leaf: 255 bytes less number, kind and state count, by three.
pub const MOST_TRIPLES: usize = (MOST_BYTES - 3) / 3;
pub const MOST_USES: usize = 64;

impl Lines {
    /// The lines of an accepted text; nothing for some texts that are not accepted.
    pub fn decode(text: &[u8]) -> Option<Lines> {
        let body = text.strip_suffix(b"\n")?;
        let frames: Option<Vec<Frame>> =
            body.split(|b| *b == b'\n').map(|line| frame(&bytes(line)?)).collect();
        Some(Lines { frames: frames? })
    }

    pub fn encode(&self) -> String {
        let line = |(number, frame): (usize, &Frame)| {
            let digits: String = body(frame).iter().map(|b| format!("{b:02X}")).collect();
            format!("{number:02X}{digits}\n")
        };
        self.frames.iter().enumerate().map(line).collect()
    }

    /// The model whose last line is the given one.
    pub fn up_to(&self, line: usize) -> Lines {
        Lines { frames: self.frames.iter().take(line.saturating_add(1)).cloned().collect() }
    }

    /// How the state codes of the last line's process are laid out; nothing for some lines that are not accepted.
    pub fn layout(&self) -> Option<Layout> {
        Layout::of(&self.frames)
    }

    /// Every channel that a line names, in ascending order; termination is on none of these.
    pub fn channels(&self) -> Vec<u8> {
        let mut all: Vec<u8> = self.frames.iter().flat_map(named_channels).collect();
        all.retain(|c| (1..=MOST_CHANNEL).contains(c));
        all.sort_unstable();
        all.dedup();
        all
    }
}

/// The bytes of a line's digits.
pub fn bytes(line: &[u8]) -> Option<Vec<u8>> {
    let digit = |b: u8| match b {
        b'0'..=b'9' => Some(b - b'0'),
        b'A'..=b'F' => Some(b - b'A' + 10),
        _ => None,
    };
    if line.len() % 2 != 0 {
        return None;
    }
    line.chunks_exact(2).map(|pair| Some(16 * digit(pair[0])? + digit(pair[1])?)).collect()
}

fn frame(bytes: &[u8]) -> Option<Frame> {
    Some(match bytes {
        [_, 1, states, rest @ ..] if rest.len() % 3 == 0 => Frame::Leaf {
            states: *states,
            triples: rest.chunks_exact(3).map(|t| Triple { from: t[0], action: t[1], to: t[2] }).collect(),
        },
        [_, 2, i, j] => Frame::Compose(*i, *j),
        [_, 3, i, channels @ ..] => Frame::Restrict(*i, channels.to_vec()),
        [_, 4, of, old, new] => Frame::Relabel { of: *of, old: *old, new: *new },
        [_, 5, i, channels @ ..] => Frame::Hide(*i, channels.to_vec()),
        [_, 6, i, j, channels @ ..] => Frame::Joint(*i, *j, channels.to_vec()),
        [_, 7, first, second] => Frame::Enable { first: *first, second: *second },
        [_, 8, first, second] => Frame::Disable { first: *first, second: *second },
        _ => return None,
    })
}

/// Kind and operands.
fn body(frame: &Frame) -> Vec<u8> {
    match frame {
        Frame::Leaf { states, triples } => {
            let steps = triples.iter().flat_map(|t| [t.from, t.action, t.to]);
            [1, *states].into_iter().chain(steps).collect()
        }
        Frame::Compose(i, j) => vec![2, *i, *j],
        Frame::Restrict(i, channels) => [&[3, *i], &channels[..]].concat(),
        Frame::Relabel { of, old, new } => vec![4, *of, *old, *new],
        Frame::Hide(i, channels) => [&[5, *i], &channels[..]].concat(),
        Frame::Joint(i, j, channels) => [&[6, *i, *j], &channels[..]].concat(),
        Frame::Enable { first, second } => vec![7, *first, *second],
        Frame::Disable { first, second } => vec![8, *first, *second],
    }
}

/// The channels of steps, lists and relabellings, with 0 for an internal step and [`EXIT_CHANNEL`] for termination.
fn named_channels(frame: &Frame) -> Vec<u8> {
    match frame {
        Frame::Leaf { triples, .. } => triples.iter().map(|t| t.action / 2).collect(),
        Frame::Compose(..) | Frame::Enable { .. } | Frame::Disable { .. } => Vec::new(),
        Frame::Relabel { old, new, .. } => vec![*old, *new],
        Frame::Restrict(_, list) | Frame::Hide(_, list) | Frame::Joint(_, _, list) => list.clone(),
    }
}
