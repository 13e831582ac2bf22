//! Generated models, malformed texts and comparisons.

use crate::answer::{Answer, MAX_TABLE};
use crate::model::{width, EXIT, EXIT_CHANNEL, MAX_BITS, MAX_USES, MOST_CHANNEL, TAU};
use crate::random::Random;
use crate::reader::read;
use crate::vectors::Case;

pub type Frame = Vec<u8>;

pub const LEAF: u8 = 1;
pub const COMPOSE: u8 = 2;
pub const RESTRICT: u8 = 3;
pub const RELABEL: u8 = 4;
pub const HIDE: u8 = 5;
pub const JOINT: u8 = 6;
pub const ENABLE: u8 = 7;
pub const DISABLE: u8 = 8;
/// The first kind that there is not.
const UNKNOWN: u8 = 9;

/// The kinds with two operands.
pub const BINARY: [u8; 4] = [COMPOSE, JOINT, ENABLE, DISABLE];

/// The bits that a line of this kind has below those of its operands.
pub fn added(kind: u8) -> u32 {
    match kind {
        ENABLE => 1,
        DISABLE => 2,
        _ => 0,
    }
}

pub const LIMIT: u64 = 1_000_000;
pub const LENGTH: usize = 1 << 16;

/// The other direction of exit's channel, which is no action.
const NO_ACTION: u8 = EXIT + 1;

/// What `MAX_BITS` was before document 02's point 1: models and look-ups about this end are tried too.
pub const FORMER_BITS: u32 = 20;

/// Numbers of bits at and above both ends.
pub const WIDE: [u32; 4] = [FORMER_BITS, FORMER_BITS + 1, MAX_BITS, MAX_BITS + 1];

/// Frames to text.
pub fn text(frames: &[Frame]) -> Vec<u8> {
    let line = |frame: &Frame| frame.iter().map(|b| format!("{b:02X}")).collect::<String>() + "\n";
    frames.iter().map(line).collect::<String>().into_bytes()
}

/// An accepted model of at most `budget` bits; some of its lines may be unused.
pub fn model(random: &mut Random, budget: u32) -> Vec<Frame> {
    let mut builder = Builder::new(random, budget);
    let most = builder.random.pick(&[8, 8, 16]);
    let lines = 1 + builder.random.below(most);
    for _ in 0..lines {
        builder.add_line();
    }
    builder.frames
}

/// A model of at most `budget` bits whose parts can be moved about: leaves that use few of its channels each, then mostly two or
/// three lines of compose or joint, or some restrictions, mostly each over the one before, with all other operators above and
/// between them.
pub fn station(random: &mut Random, budget: u32) -> Vec<Frame> {
    let mut builder = Builder::new(random, budget);
    let palette: Vec<u8> = (0..4).map(|_| channel(builder.random)).collect();
    for _ in 0..2 + builder.random.below(4) {
        builder.palette = (0..1 + builder.random.below(2)).map(|_| builder.random.pick(&palette)).collect();
        let (body, bits) = builder.leaf();
        builder.add(body, bits);
    }
    builder.palette = palette;
    for _ in 0..3 + builder.random.below(5) {
        match builder.random.below(10) {
            0..=2 => builder.add_group(),
            3 | 4 => builder.add_restrictions(),
            5 | 6 => {
                let kind = builder.random.pick(&[ENABLE, DISABLE]);
                builder.add_joined(kind);
            }
            7 | 8 => {
                let kind = builder.random.pick(&[RELABEL, HIDE]);
                builder.add_unary(kind);
            }
            _ => builder.add_line(),
        }
    }
    builder.frames
}

/// A model with a line of exactly so many bits: leaves joined one by one, in half of the models most of them without
/// steps, so that their list is small. In half of the models some are joined by enablings and disablings. In one of three a
/// small last line follows, which does not use them.
pub fn wide(random: &mut Random, bits: u32) -> Vec<Frame> {
    let mut builder = Builder::new(random, bits);
    let triples: &[usize] = if builder.random.once_in(2) { &[0, 0, 0, 0, 1] } else { &[0, 1, 2] };
    let kinds: &[u8] = if builder.random.once_in(2) { &BINARY } else { &[COMPOSE, JOINT] };
    let mut joined = builder.add_narrow_leaf(bits, triples);
    while builder.bits[joined] < bits {
        let kind = builder.random.pick(kinds);
        let Some(most) = (bits - builder.bits[joined]).checked_sub(added(kind)) else { continue };
        let leaf = builder.add_narrow_leaf(most, triples);
        let (i, j) = in_any_order(builder.random, joined, leaf);
        let (body, sum) = builder.binary(kind, i, j);
        joined = builder.add(body, sum);
    }
    if builder.random.once_in(3) {
        builder.add_narrow_leaf(2, triples);
    }
    builder.frames
}

/// Mostly the first channels, at times the last or any.
fn channel(random: &mut Random) -> u8 {
    let any = 1 + random.below(MOST_CHANNEL.into()) as u8;
    random.pick(&[1, 2, 3, 1, 2, 3, MOST_CHANNEL, any])
}

struct Builder<'a> {
    random: &'a mut Random,
    palette: Vec<u8>,
    /// Whether most steps are τ steps.
    quiet: bool,
    /// Whether some leaves have exit steps, and whether this one has.
    exits: bool,
    leaf_exits: bool,
    /// Whether many lines are enablings and disablings.
    sequences: bool,
    budget: u32,
    frames: Vec<Frame>,
    /// The bits and the leaf uses of each line.
    bits: Vec<u32>,
    uses: Vec<u32>,
    /// For each line, whether leaves below it have exits that it may show.
    exiting: Vec<bool>,
}

impl<'a> Builder<'a> {
    fn new(random: &'a mut Random, budget: u32) -> Self {
        let palette: Vec<u8> = (0..1 + random.below(3)).map(|_| channel(random)).collect();
        let (quiet, sequences) = (random.once_in(4), random.once_in(2));
        let exits = !random.once_in(if sequences { 8 } else { 4 });
        Builder {
            random,
            palette,
            quiet,
            exits,
            leaf_exits: false,
            sequences,
            budget,
            frames: vec![],
            bits: vec![],
            uses: vec![],
            exiting: vec![],
        }
    }

    /// Adds a line with this frame but for its number, which is returned.
    fn add(&mut self, body: Frame, bits: u32) -> usize {
        let number = self.frames.len();
        let operand = |place: usize| usize::from(body[place]);
        let (uses, exiting) = match body[0] {
            LEAF => (1, body[2..].chunks(3).any(|triple| triple[1] == EXIT)),
            kind if BINARY.contains(&kind) => {
                let (i, j) = (operand(1), operand(2));
                let exiting = match kind {
                    ENABLE => self.exiting[j],
                    JOINT => self.exiting[i] && self.exiting[j],
                    _ => self.exiting[i] || self.exiting[j],
                };
                (self.uses[i] + self.uses[j], exiting)
            }
            _ => (self.uses[operand(1)], self.exiting[operand(1)]),
        };
        self.uses.push(uses);
        self.exiting.push(exiting);
        self.frames.push([vec![number as u8], body].concat());
        self.bits.push(bits);
        number
    }

    fn add_line(&mut self) {
        let plain = [LEAF, LEAF, COMPOSE, COMPOSE, RESTRICT, RELABEL, HIDE, JOINT, JOINT];
        let sequence = self.random.pick(&[ENABLE, DISABLE]);
        let plain = self.random.pick(&plain);
        let kind = if self.sequences { self.random.pick(&[plain, sequence]) } else { plain };
        let (body, bits) = match kind {
            _ if self.frames.is_empty() => self.leaf(),
            RESTRICT | HIDE | RELABEL => self.unary(kind),
            LEAF => self.leaf(),
            _ => match self.two_operands(kind) {
                Some((i, j)) => self.binary(kind, i, j),
                None => self.leaf(),
            },
        };
        self.add(body, bits);
    }

    fn add_unary(&mut self, kind: u8) {
        let (body, bits) = self.unary(kind);
        self.add(body, bits);
    }

    /// A line of this kind with two operands, if some are found that fit; whether they are.
    fn add_joined(&mut self, kind: u8) -> bool {
        let operands = (0..4).find_map(|_| self.two_operands(kind));
        if let Some((i, j)) = operands {
            let (body, bits) = self.binary(kind, i, j);
            self.add(body, bits);
        }
        operands.is_some()
    }

    /// Two or three lines of one kind, compose or joint, as far as they fit, mostly each over the one before; joints mostly by one
    /// list.
    fn add_group(&mut self) {
        let kind = self.random.pick(&[COMPOSE, JOINT]);
        let list = self.channel_list();
        let one_list = kind == JOINT && !self.random.once_in(3);
        for _ in 0..2 + self.random.below(2) {
            if self.add_joined(kind) && one_list {
                let frame = self.frames.last_mut().expect("the line added");
                frame.truncate(4);
                frame.extend(&list);
            }
        }
    }

    /// One to three restrictions, each of the newest line or another, and half of the time a composition.
    fn add_restrictions(&mut self) {
        for _ in 0..1 + self.random.below(3) {
            self.add_unary(RESTRICT);
        }
        if self.random.once_in(2) {
            self.add_joined(COMPOSE);
        }
    }

    /// A leaf of 1 to `most` bits, mostly 1, or of none if `most` is 0, with one of these numbers of triples.
    fn add_narrow_leaf(&mut self, most: u32, triples: &[usize]) -> usize {
        let any = 1 + self.random.below(most.clamp(1, 6) as usize) as u32;
        let bits = self.random.pick(&[1, 1, any]).min(most);
        let states = match bits {
            0 => 1,
            _ => (1 << (bits - 1)) + 1 + self.random.below(1 << (bits - 1)) as u8,
        };
        let mut body = self.new_leaf(states);
        for _ in 0..self.random.pick(triples) {
            body.extend(self.triple(states));
        }
        self.add(body, bits)
    }

    fn leaf(&mut self) -> (Frame, u32) {
        let any = 1 + self.random.below(64) as u8;
        let wide = if self.random.once_in(16) { any } else { 2 };
        let states: u8 = self.random.pick(&[1, 1, 2, 2, 3, 3, 4, 5, wide]);
        let mut body = self.new_leaf(states);
        if self.random.once_in(4) {
            body.extend(self.chain(states));
        }
        if self.sequences && self.leaf_exits && self.random.once_in(2) {
            body.extend([0, EXIT, self.random.below(states.into()) as u8]);
        }
        for _ in 0..self.random.below(7) {
            body.extend(self.triple(states));
        }
        (body, width(states))
    }

    /// A leaf without triples; in a model with exits one leaf in four will have none, so that at times one side exits alone.
    fn new_leaf(&mut self, states: u8) -> Frame {
        self.leaf_exits = self.exits && !self.random.once_in(4);
        vec![LEAF, states]
    }

    /// A step from each state to the next one, which makes differences show late.
    fn chain(&mut self, states: u8) -> Vec<u8> {
        (1..states).flat_map(|to| [to - 1, self.action(), to]).collect()
    }

    fn triple(&mut self, states: u8) -> [u8; 3] {
        let any = self.random.below(states.into()) as u8;
        let from = self.random.pick(&[0, any, any]);
        let to = self.random.below(states.into()) as u8;
        [from, self.action(), to]
    }

    /// In a leaf with exits one action in three is one. Of the others about one in three is τ, in a quiet model two in three.
    fn action(&mut self) -> u8 {
        if self.leaf_exits && self.random.once_in(3) {
            return EXIT;
        }
        let channel = self.random.pick(&self.palette);
        let visible = self.random.pick(&[2 * channel, 2 * channel + 1]);
        self.random.pick(&[TAU, visible, if self.quiet { TAU } else { visible }])
    }

    /// Mostly the newest line, so that operators nest.
    fn operand(&mut self) -> usize {
        let newest = self.frames.len() - 1;
        let any = self.random.below(self.frames.len());
        self.random.pick(&[newest, newest, any])
    }

    /// The first of an enabling or disabling is mostly one that exits, if one of the two does.
    fn two_operands(&mut self, kind: u8) -> Option<(usize, usize)> {
        let i = self.operand();
        let any = self.random.below(self.frames.len());
        let j = self.random.pick(&[i, any, any, any]);
        let (mut i, mut j) = in_any_order(self.random, i, j);
        if added(kind) > 0 && !self.exiting[i] && !self.random.once_in(4) {
            (i, j) = (j, i);
        }
        let bits = added(kind) + self.bits[i] + self.bits[j];
        let fit = bits <= self.budget && self.uses[i] + self.uses[j] <= MAX_USES;
        fit.then_some((i, j))
    }

    fn binary(&mut self, kind: u8, i: usize, j: usize) -> (Frame, u32) {
        let list = if kind == JOINT { self.channel_list() } else { vec![] };
        ([vec![kind, i as u8, j as u8], list].concat(), added(kind) + self.bits[i] + self.bits[j])
    }

    fn unary(&mut self, kind: u8) -> (Frame, u32) {
        let operand = self.operand();
        let rest = match kind {
            RELABEL => vec![self.some_channel(), self.some_channel()],
            _ => self.channel_list(),
        };
        ([vec![kind, operand as u8], rest].concat(), self.bits[operand])
    }

    fn some_channel(&mut self) -> u8 {
        let fresh = channel(self.random);
        let known = self.random.pick(&self.palette);
        self.random.pick(&[known, known, fresh])
    }

    fn channel_list(&mut self) -> Vec<u8> {
        (0..self.random.below(4)).map(|_| self.some_channel()).collect()
    }
}

/// A model close to the given one, often equal to it in one mode or both.
pub fn variant(random: &mut Random, frames: &[Frame]) -> Vec<Frame> {
    let mut changed = frames.to_vec();
    let newest = frames.len() as u8 - 1;
    let next = frames.len() as u8;
    let place = random.below(frames.len());
    match random.below(12) {
        0 => changed.push(vec![next, RESTRICT, newest]),
        1 => changed.push(vec![next, RELABEL, newest, 1, 1]),
        2 => changed.push(vec![next, HIDE, newest]),
        3 => swap_operands(&mut changed[place]),
        4 => shuffle_triples(random, &mut changed[place]),
        5 => drop_triple(&mut changed[place]),
        6 | 7 => redirect_triple(random, &mut changed[place]),
        8 | 9 => changed.extend(around(random, newest)),
        _ => {}
    }
    changed
}

/// What is put around the newest line: an enabling or disabling that leaves it equal but for τ steps, or mostly so.
fn around(random: &mut Random, newest: u8) -> [Frame; 2] {
    let (stop, exit) = (vec![newest + 1, LEAF, 1], vec![newest + 1, LEAF, 1, 0, EXIT, 0]);
    let last = |kind: u8, i: u8, j: u8| vec![newest + 2, kind, i, j];
    match random.below(4) {
        0 => [exit, last(ENABLE, newest + 1, newest)],
        1 => [exit, last(ENABLE, newest, newest + 1)],
        2 => [stop, last(DISABLE, newest + 1, newest)],
        _ => [stop, last(DISABLE, newest, newest + 1)],
    }
}

fn swap_operands(frame: &mut Frame) {
    if BINARY.contains(&frame[1]) {
        frame.swap(2, 3);
    }
}

fn shuffle_triples(random: &mut Random, frame: &mut Frame) {
    if frame[1] == LEAF {
        let mut triples: Vec<_> = frame[3..].chunks(3).map(<[u8]>::to_vec).collect();
        random.shuffle(&mut triples);
        frame.truncate(3);
        frame.extend(triples.concat());
    }
}

/// Whether it is a leaf that has some.
fn has_triples(frame: &Frame) -> bool {
    frame[1] == LEAF && frame.len() > 3
}

fn drop_triple(frame: &mut Frame) {
    if has_triples(frame) {
        frame.truncate(frame.len() - 3);
    }
}

/// Another target state in one triple.
fn redirect_triple(random: &mut Random, frame: &mut Frame) {
    if has_triples(frame) {
        let triple = random.below((frame.len() - 3) / 3);
        frame[3 * triple + 5] = random.below(frame[2].into()) as u8;
    }
}

/// The same in any leaf that has triples, if there is one: a difference that shows at once, late or never.
pub fn redirect_any_triple(random: &mut Random, frames: &mut [Frame]) {
    let mut leaves: Vec<&mut Frame> = frames.iter_mut().filter(|frame| has_triples(frame)).collect();
    if !leaves.is_empty() {
        let leaf = random.below(leaves.len());
        redirect_triple(random, leaves[leaf]);
    }
}

/// Two accepted models, mostly close to each other.
pub fn pair(random: &mut Random, budget: u32) -> (Vec<Frame>, Vec<Frame>) {
    let one = model(random, budget);
    let changes = random.below(4);
    if changes == 0 {
        return (one, model(random, budget));
    }
    let other = (0..changes).fold(one.clone(), |frames, _| variant(random, &frames));
    in_any_order(random, one, other)
}

/// Two accepted models, a used line of which is an enabling or disabling.
pub fn sequenced_pair(random: &mut Random, budget: u32) -> (Vec<Frame>, Vec<Frame>) {
    loop {
        let (left, right) = pair(random, budget);
        if has_sequence(&text(&left)) || has_sequence(&text(&right)) {
            return (left, right);
        }
    }
}

/// Whether the text is accepted and its last line is an enabling or disabling, or uses one.
pub fn has_sequence(text: &[u8]) -> bool {
    read(text).is_ok_and(|model| {
        let used = model.used();
        model.lines.iter().zip(used).any(|(line, used)| used && line.process.added_bits() > 0)
    })
}

pub fn in_any_order<T>(random: &mut Random, one: T, other: T) -> (T, T) {
    if random.once_in(2) {
        (one, other)
    } else {
        (other, one)
    }
}

/// A model about as large as may be, and one close to it or a small one.
pub fn wide_pair(random: &mut Random) -> (Vec<Frame>, Vec<Frame>) {
    let bits = random.pick(&WIDE);
    let one = wide(random, bits);
    let other = if random.once_in(2) { variant(random, &one) } else { model(random, 3) };
    in_any_order(random, one, other)
}

/// A chain of steps and one that is shorter, closed or the same: verdicts after many rounds.
pub fn chain_pair(random: &mut Random) -> (Vec<Frame>, Vec<Frame>) {
    let states = 6 + random.below(20) as u8;
    let action = random.pick(&[TAU, 2, 3, 2, 3, EXIT]);
    let mut chain: Frame = vec![0, LEAF, states];
    chain.extend((1..states).flat_map(|to| [to - 1, action, to]));
    let mut other = chain.clone();
    match random.below(3) {
        0 => drop_triple(&mut other),
        1 => other.extend([states - 1, action, random.below(states.into()) as u8]),
        _ => shuffle_triples(random, &mut other),
    }
    (vec![chain], vec![other])
}

/// A pair of accepted models with limit and table length.
pub fn sound_case(random: &mut Random) -> Case {
    let budget = random.pick(&[2, 3, 4, 5, 6]);
    let (left, right) = pair(random, budget);
    let mut case = Case { left: text(&left), right: text(&right), limit: LIMIT, length: LENGTH };
    if random.once_in(3) {
        tighten(random, &mut case);
    }
    case
}

/// Moves limit or table length to an edge of the answer.
fn tighten(random: &mut Random, case: &mut Case) {
    let Answer::Given { strong, weak, nodes } = case.run().answer else { return };
    let rounds = random.pick(&[strong, weak]).rounds();
    match random.below(6) {
        0 => case.length = nodes.whole + 2,
        1 => case.length = (nodes.whole + 1).max(2),
        2 => case.limit = rounds,
        3 => case.limit = rounds - 1,
        4 => case.limit = 0,
        _ => case.length = 2 + random.below(nodes.whole + 2),
    }
}

/// A case that refusal 7 is due of, whatever the texts.
fn bad_call(random: &mut Random) -> Case {
    let mut case = sound_case(random);
    if random.once_in(3) {
        case.left = malformed(random);
    }
    if random.once_in(2) {
        case.length = random.below(2);
    } else {
        case.length = MAX_TABLE + 1 + random.below(1000);
    }
    case
}

/// A comparison of any sort.
pub fn case(random: &mut Random) -> Case {
    match random.below(40) {
        0 => bad_call(random),
        1..=9 => {
            let mut case = sound_case(random);
            match random.below(3) {
                0 => case.left = malformed(random),
                1 => case.right = malformed(random),
                _ => (case.left, case.right) = (malformed(random), malformed(random)),
            }
            case
        }
        _ => sound_case(random),
    }
}

/// A text made from an accepted one so that a refusal 1 to 6 is likely due, or of random bytes.
pub fn malformed(random: &mut Random) -> Vec<u8> {
    let frames = model(random, 6);
    match random.below(16) {
        0 | 1 => stray_bytes(random, text(&frames)),
        2 => cut(random, text(&frames)),
        3 => text(&resized(random, frames)),
        4 => text(&misnumbered(random, frames)),
        5 => text(&many_lines(random)),
        6 => text(&wrong_kind(random, frames)),
        7 => text(&wrong_length(random, frames)),
        8 | 9 => text(&changed_byte(random, frames)),
        10 if random.once_in(2) => text(&too_many_uses(random)),
        10 => text(&too_large(random)),
        11 | 12 => text(&misused_exit(random, frames)),
        13 | 14 => text(&wrong_sequence(random, frames)),
        _ => random_bytes(random),
    }
}

fn stray_bytes(random: &mut Random, mut bytes: Vec<u8>) -> Vec<u8> {
    let place = random.below(bytes.len());
    let any = random.draw() as u8;
    bytes[place] = random.pick(&[b'G', b'a', b'f', b' ', b'\r', b'/', b':', b'@', b'`', 0, 0xFF, any]);
    bytes
}

fn cut(random: &mut Random, mut bytes: Vec<u8>) -> Vec<u8> {
    match random.below(3) {
        0 => bytes.truncate(random.below(bytes.len())),
        1 => drop(bytes.remove(random.below(bytes.len()))),
        _ => bytes.truncate(bytes.len() - 1),
    }
    bytes
}

/// One frame under 2 or over 255 bytes, or just within.
fn resized(random: &mut Random, mut frames: Vec<Frame>) -> Vec<Frame> {
    let place = random.below(frames.len());
    let size = random.pick(&[0, 1, 255, 256, 300]);
    let filler = random.pick(&[0, 1, 2]);
    frames[place].resize(size, filler);
    frames
}

fn misnumbered(random: &mut Random, mut frames: Vec<Frame>) -> Vec<Frame> {
    let place = random.below(frames.len());
    frames[place][0] = random.pick(&[0, 1, 2, 64, 255]);
    frames
}

/// 64 lines or more.
fn many_lines(random: &mut Random) -> Vec<Frame> {
    let lines = 64 + random.below(3) as u8;
    (0..lines).map(|number| vec![number, LEAF, 1]).collect()
}

fn wrong_kind(random: &mut Random, mut frames: Vec<Frame>) -> Vec<Frame> {
    let place = random.below(frames.len());
    frames[place][1] = random.pick(&[0, 1, 2, 3, 4, 5, 6, ENABLE, DISABLE, UNKNOWN, UNKNOWN + 1, 255]);
    frames
}

fn wrong_length(random: &mut Random, mut frames: Vec<Frame>) -> Vec<Frame> {
    let place = random.below(frames.len());
    if random.once_in(2) {
        frames[place].pop();
    } else {
        frames[place].push(1);
    }
    frames
}

/// One byte of a body becomes a value at the edge of some range.
fn changed_byte(random: &mut Random, mut frames: Vec<Frame>) -> Vec<Frame> {
    let place = random.below(frames.len());
    let index = random.below(frames[place].len() - 2) + 2;
    frames[place][index] = random.pick(&[0, 1, 2, 5, 30, 31, 31, 32, 62, 63, 63, 64, 65, 255]);
    frames
}

/// Exit as if it were any channel's output: a step of its input, or its channel in a relabelling or anywhere in a list.
/// Another line with two operands becomes a joint on it.
fn misused_exit(random: &mut Random, mut frames: Vec<Frame>) -> Vec<Frame> {
    let any = random.below(frames.len());
    let with_channels = frames.iter().position(|frame| matches!(frame[1], RESTRICT | RELABEL | HIDE | JOINT));
    let place = random.pick(&[any, with_channels.unwrap_or(any)]);
    let frame = &mut frames[place];
    match frame[1] {
        LEAF if frame.len() > 3 => {
            let triple = random.below((frame.len() - 3) / 3);
            frame[3 * triple + 4] = NO_ACTION;
        }
        LEAF => frame.extend([0, NO_ACTION, 0]),
        RELABEL => frame[3 + random.below(2)] = EXIT_CHANNEL,
        kind => {
            let list = if BINARY.contains(&kind) { 4 } else { 3 };
            let position = list + random.below(frame.len() - list + 1);
            frame.insert(position, EXIT_CHANNEL);
            frame[1] = if BINARY.contains(&kind) { JOINT } else { kind };
        }
    }
    frames
}

/// An enabling or disabling, or the first unknown kind, with a body of any length and operands up to and past its own line; at
/// times a line follows.
fn wrong_sequence(random: &mut Random, mut frames: Vec<Frame>) -> Vec<Frame> {
    let next = frames.len() as u8;
    let kind = random.pick(&[ENABLE, DISABLE, ENABLE, DISABLE, UNKNOWN]);
    let size = random.pick(&[0, 1, 2, 2, 2, 3, 4, 253]);
    let past = random.pick(&[next, next + 1, 63, 64, 255]);
    let mut body: Frame = (0..size).map(|_| random.below(next.into()) as u8).collect();
    if size == 2 || random.once_in(2) {
        body.iter_mut().skip(random.below(2)).take(1 + random.below(2)).for_each(|byte| *byte = past);
    }
    frames.push([vec![next, kind], body].concat());
    if random.once_in(4) {
        frames.push(vec![next + 1, LEAF, 1]);
    }
    frames
}

/// Doubles a leaf until the bits or the uses are at the end of what is allowed or above it.
fn too_large(random: &mut Random) -> Vec<Frame> {
    let states: u8 = random.pick(&[1, 1, 2, 3, 17, 64]);
    let mut frames = vec![vec![0, LEAF, states, 0, 2, 0]];
    let kinds: &[u8] = if random.once_in(2) { &BINARY } else { &[COMPOSE, JOINT] };
    let (mut uses, mut bits) = (1, width(states));
    while uses <= MAX_USES && bits <= MAX_BITS {
        let newest = frames.len() as u8 - 1;
        let kind = random.pick(kinds);
        let (other, more, wider) =
            if random.once_in(4) { (0, 1, width(states)) } else { (newest, uses, bits) };
        frames.push(vec![newest + 1, kind, newest, other]);
        (uses, bits) = (uses + more, bits + wider + added(kind));
    }
    frames
}

/// A leaf of one state doubled to as many uses as are allowed, and a line with more of them or as many.
fn too_many_uses(random: &mut Random) -> Vec<Frame> {
    let mut frames = vec![vec![0, LEAF, 1, 0, EXIT, 0]];
    for newest in 0..MAX_USES.ilog2() as u8 {
        frames.push(vec![newest + 1, random.pick(&[COMPOSE, JOINT]), newest, newest]);
    }
    let newest = frames.len() as u8 - 1;
    let one = random.pick(&[newest, newest, newest - 1]);
    let other = random.pick(&[0, newest - 1]);
    let (i, j) = in_any_order(random, one, other);
    frames.push(vec![newest + 1, random.pick(&BINARY), i, j]);
    frames
}

fn random_bytes(random: &mut Random) -> Vec<u8> {
    let size = random.below(40);
    let any: Vec<u8> = (0..size).map(|_| random.draw() as u8).collect();
    let close: Vec<u8> = (0..size).map(|_| random.pick(b"0000111223456789ABCDEF\n\n")).collect();
    if random.once_in(2) {
        any
    } else {
        close
    }
}
