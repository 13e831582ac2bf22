//! Reordered processes (document 02, point 7): a process as a tree, moves in it that keep it equal and some that need not, and
//! the tree written back as a text.

use std::mem::{swap, take};

use crate::generate::{station, wide, Frame, BINARY, COMPOSE, HIDE, JOINT, LEAF, RELABEL, RESTRICT};
use crate::model::{Channels, MAX_BITS, MAX_LINES, TAU};
use crate::random::Random;

/// The most channels that a move gives a list: as many as a joint can list, whose frame of 255 bytes has its line's number, its
/// kind and two operands before them. A restriction or a hiding could list one more.
const MOST_LISTED: usize = 251;

/// The kinds with a list of channels.
const LISTING: [u8; 3] = [RESTRICT, HIDE, JOINT];

/// A process with a copy of each operand, so that the uses of one line can be changed apart.
#[derive(Clone, Debug, Default, PartialEq, Eq)]
pub struct Tree {
    pub kind: u8,
    pub operands: Vec<Tree>,
    /// What stands after the operands: a leaf's states and triples, the channels of a list, or the two of a relabelling.
    pub rest: Vec<u8>,
}

/// The operands that lead from a tree to a part of it.
pub type Path = Vec<usize>;

impl Tree {
    /// The process of an accepted text's last line.
    pub fn new(frames: &[Frame]) -> Tree {
        Tree::of_line(frames, frames.len() - 1)
    }

    fn of_line(frames: &[Frame], line: usize) -> Tree {
        let kind = frames[line][1];
        let count = match kind {
            LEAF => 0,
            _ if BINARY.contains(&kind) => 2,
            _ => 1,
        };
        let (operands, rest) = frames[line][2..].split_at(count);
        let operand = |&number: &u8| Tree::of_line(frames, number.into());
        Tree { kind, operands: operands.iter().map(operand).collect(), rest: rest.to_vec() }
    }

    fn restrict(self, list: Vec<u8>) -> Tree {
        Tree { kind: RESTRICT, operands: vec![self], rest: list }
    }

    pub fn at(&self, path: &[usize]) -> &Tree {
        path.iter().fold(self, |tree, &operand| &tree.operands[operand])
    }

    fn at_mut(&mut self, path: &[usize]) -> &mut Tree {
        path.iter().fold(self, |tree, &operand| &mut tree.operands[operand])
    }

    /// The paths to the tree itself and to all its parts.
    pub fn paths(&self) -> Vec<Path> {
        let mut paths = vec![vec![]];
        for (number, operand) in self.operands.iter().enumerate() {
            paths.extend(operand.paths().into_iter().map(|path| [vec![number], path].concat()));
        }
        paths
    }

    /// The channels that a restriction, hiding or joint lists.
    fn listed(&self) -> Channels {
        self.rest.iter().copied().collect()
    }

    /// Channels outside which the process has no step from any state: those of its leaves' actions, as far as they are not taken away,
    /// and those that relabellings give.
    pub fn channels(&self) -> Channels {
        let below = Channels(self.operands.iter().fold(0, |set, operand| set | operand.channels().0));
        match self.kind {
            LEAF => {
                let actions = self.rest[1..].chunks(3).map(|triple| triple[1]);
                actions.filter(|&action| action != TAU).map(|action| action / 2).collect()
            }
            RESTRICT | HIDE => Channels(below.0 & !self.listed().0),
            RELABEL if below.has_action(2 * self.rest[0]) => {
                Channels(below.0 & !Channels::single(self.rest[0]).0).with(self.rest[1])
            }
            _ => below,
        }
    }

    /// The same tree with every list in the order of its channels and without repeats.
    pub fn listed_in_order(&self) -> Tree {
        let operands = self.operands.iter().map(Tree::listed_in_order).collect();
        let mut rest = self.rest.clone();
        if LISTING.contains(&self.kind) {
            in_order(&mut rest);
        }
        Tree { kind: self.kind, operands, rest }
    }

    /// Whether the process may have a step on one of these channels.
    fn uses(&self, channels: Channels) -> bool {
        self.channels().0 & channels.0 != 0
    }
}

/// A change of one part of a tree. The first twelve are laws: they keep the process equal. The others need not.
#[derive(Clone, Copy, Debug, PartialEq, Eq, PartialOrd, Ord)]
pub enum Move {
    ComposeCommutes,
    /// From (p q) r to p (q r), and back.
    ComposeRegroupsRight,
    ComposeRegroupsLeft,
    JointCommutes,
    /// Of two joints whose lists name the same channels.
    JointRegroupsRight,
    JointRegroupsLeft,
    RestrictCommutes,
    RestrictSplits,
    RestrictMerges,
    /// Another list of the same channels, for a restriction, a hiding or a joint.
    SameChannels,
    /// Of either part of a composition whose other part has no step on the listed channels.
    RestrictMovesOut,
    RestrictMovesIn,
    /// Of two joints whose lists differ.
    JointRegroupsTwoLists,
    /// Where the other part uses a listed channel.
    RestrictMovesOutOfUse,
}

pub const LAWS: [Move; 12] = [
    Move::ComposeCommutes,
    Move::ComposeRegroupsRight,
    Move::ComposeRegroupsLeft,
    Move::JointCommutes,
    Move::JointRegroupsRight,
    Move::JointRegroupsLeft,
    Move::RestrictCommutes,
    Move::RestrictSplits,
    Move::RestrictMerges,
    Move::SameChannels,
    Move::RestrictMovesOut,
    Move::RestrictMovesIn,
];

impl Move {
    /// Whether the move can be made of this part of a tree.
    fn applies(self, tree: &Tree) -> bool {
        match self {
            Move::ComposeCommutes => tree.kind == COMPOSE,
            Move::ComposeRegroupsRight => tree.kind == COMPOSE && has_same_kind(tree, 0),
            Move::ComposeRegroupsLeft => tree.kind == COMPOSE && has_same_kind(tree, 1),
            Move::JointCommutes => tree.kind == JOINT,
            Move::JointRegroupsRight => tree.kind == JOINT && has_same_kind(tree, 0) && same_lists(tree, 0),
            Move::JointRegroupsLeft => tree.kind == JOINT && has_same_kind(tree, 1) && same_lists(tree, 1),
            Move::JointRegroupsTwoLists => {
                tree.kind == JOINT && has_same_kind(tree, 0) && !same_lists(tree, 0)
            }
            Move::RestrictCommutes => tree.kind == RESTRICT && has_same_kind(tree, 0),
            Move::RestrictMerges => {
                tree.kind == RESTRICT
                    && has_same_kind(tree, 0)
                    && tree.rest.len() + tree.operands[0].rest.len() <= MOST_LISTED
            }
            Move::RestrictSplits => tree.kind == RESTRICT,
            Move::SameChannels => LISTING.contains(&tree.kind) && !tree.rest.is_empty(),
            Move::RestrictMovesOut => !to_move_out(tree, false).is_empty(),
            Move::RestrictMovesOutOfUse => !to_move_out(tree, true).is_empty(),
            Move::RestrictMovesIn => !to_move_into(tree).is_empty(),
        }
    }

    /// Makes the move of a part to which it applies.
    fn make(self, random: &mut Random, tree: &mut Tree) {
        match self {
            Move::ComposeCommutes | Move::JointCommutes => tree.operands.swap(0, 1),
            Move::ComposeRegroupsRight | Move::JointRegroupsRight | Move::JointRegroupsTwoLists => {
                regroup_right(tree)
            }
            Move::ComposeRegroupsLeft | Move::JointRegroupsLeft => regroup_left(tree),
            Move::RestrictCommutes => swap(&mut tree.rest, &mut tree.operands[0].rest),
            Move::RestrictSplits => split(random, tree),
            Move::RestrictMerges => merge(tree),
            Move::SameChannels => list_anew(random, &mut tree.rest),
            Move::RestrictMovesOut | Move::RestrictMovesOutOfUse => {
                let part = random.pick(&to_move_out(tree, self == Move::RestrictMovesOutOfUse));
                move_out(tree, part);
            }
            Move::RestrictMovesIn => {
                let part = random.pick(&to_move_into(tree));
                move_into(tree, part);
            }
        }
    }
}

/// Whether this operand is of its user's kind.
fn has_same_kind(tree: &Tree, operand: usize) -> bool {
    tree.operands[operand].kind == tree.kind
}

fn same_lists(tree: &Tree, operand: usize) -> bool {
    tree.operands[operand].listed() == tree.listed()
}

/// The two operands, taken out of their user.
fn taken(tree: &mut Tree) -> [Tree; 2] {
    take(&mut tree.operands).try_into().expect("two operands")
}

/// From (p q) r to p (q r). Each list stays between its two parts.
fn regroup_right(tree: &mut Tree) {
    let [mut inner, r] = taken(tree);
    let [p, q] = taken(&mut inner);
    inner.operands = vec![q, r];
    swap(&mut tree.rest, &mut inner.rest);
    tree.operands = vec![p, inner];
}

/// From p (q r) to (p q) r.
fn regroup_left(tree: &mut Tree) {
    let [p, mut inner] = taken(tree);
    let [q, r] = taken(&mut inner);
    inner.operands = vec![p, q];
    swap(&mut tree.rest, &mut inner.rest);
    tree.operands = vec![inner, r];
}

/// Each listed channel goes to one of two restrictions, or to both; a list may stay empty.
fn split(random: &mut Random, tree: &mut Tree) {
    let (mut inner, mut outer) = (vec![], vec![]);
    for &channel in &tree.rest {
        let place = random.below(3);
        if place != 0 {
            inner.push(channel);
        }
        if place != 1 {
            outer.push(channel);
        }
    }
    let operand = take(&mut tree.operands[0]);
    *tree = operand.restrict(inner).restrict(outer);
}

/// Two restrictions become one by both lists together.
fn merge(tree: &mut Tree) {
    let mut inner = take(&mut tree.operands[0]);
    inner.rest.append(&mut tree.rest);
    *tree = inner;
}

fn in_order(list: &mut Vec<u8>) {
    list.sort_unstable();
    list.dedup();
}

/// The same channels in any order, with more or fewer repeats; at times so many that the frame is as long as may be.
fn list_anew(random: &mut Random, list: &mut Vec<u8>) {
    if random.once_in(2) {
        in_order(list);
    }
    let room = MOST_LISTED.saturating_sub(list.len());
    let all = if random.once_in(16) { room } else { 0 };
    for _ in 0..random.pick(&[0, 1, 2, 3, all]).min(room) {
        list.push(random.pick(list));
    }
    random.shuffle(list);
}

/// The parts of a composition that are restrictions by channels of which the other part uses some, or none.
fn to_move_out(tree: &Tree, used: bool) -> Vec<usize> {
    let movable = |&part: &usize| {
        let restriction = &tree.operands[part];
        restriction.kind == RESTRICT && tree.operands[1 - part].uses(restriction.listed()) == used
    };
    if tree.kind == COMPOSE {
        (0..2).filter(movable).collect()
    } else {
        vec![]
    }
}

/// The parts of a restricted composition into which the restriction can move: the other one uses no listed channel.
fn to_move_into(tree: &Tree) -> Vec<usize> {
    match tree.operands.first() {
        Some(composed) if tree.kind == RESTRICT && composed.kind == COMPOSE => {
            (0..2).filter(|part| !composed.operands[1 - part].uses(tree.listed())).collect()
        }
        _ => vec![],
    }
}

fn move_out(tree: &mut Tree, part: usize) {
    let Tree { mut operands, rest, .. } = take(&mut tree.operands[part]);
    tree.operands[part] = take(&mut operands[0]);
    *tree = take(tree).restrict(rest);
}

fn move_into(tree: &mut Tree, part: usize) {
    let mut composed = take(&mut tree.operands[0]);
    let operand = take(&mut composed.operands[part]);
    composed.operands[part] = operand.restrict(take(&mut tree.rest));
    *tree = composed;
}

/// Makes one of these moves somewhere in the tree, each kind that applies anywhere as likely as the others; says which and where.
pub fn move_any(random: &mut Random, tree: &mut Tree, moves: &[Move]) -> Option<(Move, Path)> {
    let paths = tree.paths();
    let mut moves = moves.to_vec();
    random.shuffle(&mut moves);
    for change in moves {
        let places: Vec<&Path> = paths.iter().filter(|path| change.applies(tree.at(path))).collect();
        if !places.is_empty() {
            let path = random.pick(&places).clone();
            change.make(random, tree.at_mut(&path));
            return Some((change, path));
        }
    }
    None
}

/// A line before it has its number; operands are places in a list of such lines.
#[derive(Clone, Debug, PartialEq, Eq)]
struct Unnumbered {
    kind: u8,
    operands: Vec<usize>,
    rest: Vec<u8>,
}

/// How often equal parts of a tree share a line.
#[derive(Clone, Copy, Debug, PartialEq, Eq)]
enum Sharing {
    Never,
    AtTimes,
    Always,
}

/// The frames of the tree, with lines shared and ordered at random; none if they are more than a text can have.
pub fn frames(random: &mut Random, tree: &Tree) -> Option<Vec<Frame>> {
    let sharing = random.pick(&[Sharing::Never, Sharing::AtTimes, Sharing::Always]);
    let mut lines = Vec::new();
    add_lines(random, sharing, tree, &mut lines);
    if lines.len() > MAX_LINES {
        lines.clear();
        add_lines(random, Sharing::Always, tree, &mut lines);
    }
    (lines.len() <= MAX_LINES).then(|| numbered(random, &lines))
}

/// Adds the lines of a tree that are not shared with those that are there; the place of its own line.
fn add_lines(random: &mut Random, sharing: Sharing, tree: &Tree, lines: &mut Vec<Unnumbered>) -> usize {
    let mut operands = Vec::new();
    for operand in &tree.operands {
        operands.push(add_lines(random, sharing, operand, lines));
    }
    let line = Unnumbered { kind: tree.kind, operands, rest: tree.rest.clone() };
    let shared = match sharing {
        Sharing::Never => false,
        Sharing::AtTimes => random.once_in(2),
        Sharing::Always => true,
    };
    match lines.iter().position(|other| shared && *other == line) {
        Some(place) => place,
        None => {
            lines.push(line);
            lines.len() - 1
        }
    }
}

/// The lines in any order in which operands stand before their users; the last one, which uses all others, stays last.
fn numbered(random: &mut Random, lines: &[Unnumbered]) -> Vec<Frame> {
    let mut numbers: Vec<Option<u8>> = vec![None; lines.len()];
    let mut frames: Vec<Frame> = Vec::new();
    while frames.len() < lines.len() {
        let ready = |&place: &usize| {
            numbers[place].is_none() && lines[place].operands.iter().all(|&o| numbers[o].is_some())
        };
        let ready: Vec<usize> = (0..lines.len()).filter(ready).collect();
        let place = random.pick(&ready);
        let number = frames.len() as u8;
        let Unnumbered { kind, operands, rest } = &lines[place];
        let operands = operands.iter().map(|&operand| numbers[operand].expect("an earlier line"));
        frames.push([vec![number, *kind], operands.collect(), rest.clone()].concat());
        numbers[place] = Some(number);
    }
    frames
}

/// A process and a reordered one as texts' frames, with the moves that lead from one to the other.
#[derive(Clone, Debug)]
pub struct Reordered {
    pub before: Vec<Frame>,
    pub after: Vec<Frame>,
    pub moves: Vec<Move>,
}

/// A model for moves: mostly of up to 8 bits; one of 64 has more, most of whose leaves have few steps.
pub fn movable_model(random: &mut Random) -> Vec<Frame> {
    let budget = random.pick(&[4, 5, 6, 7, 8, 8]);
    match random.below(64) {
        0 => {
            let bits = random.pick(&[16, 20, MAX_BITS]);
            wide(random, bits)
        }
        _ => station(random, budget),
    }
}

/// Whether trees differ, and in more than how their lists are written. One in eight of the others that differ is taken too.
fn worth_comparing(random: &mut Random, before: &Tree, after: &Tree) -> bool {
    before != after && (before.listed_in_order() != after.listed_in_order() || random.once_in(8))
}

/// A model and another one, after one to twelve moves by laws that leave it changed.
pub fn reordered(random: &mut Random) -> Reordered {
    loop {
        let before = movable_model(random);
        let mut tree = Tree::new(&before);
        let start = tree.clone();
        let wanted = 1 + random.below(12);
        let made = (0..wanted).map_while(|_| move_any(random, &mut tree, &LAWS));
        let moves: Vec<Move> = made.map(|(change, _)| change).collect();
        if worth_comparing(random, &start, &tree) {
            if let Some(after) = frames(random, &tree) {
                return Reordered { before, after, moves };
            }
        }
    }
}
