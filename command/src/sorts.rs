//! What a line's process may do, as far as its leaves and operators tell.

use crate::frames::{Frame, Model, EXIT};
use std::collections::BTreeSet;

/// Actions on channels.
pub type Sort = BTreeSet<u8>;

/// The actions on channels that a line's process has in some state, reachable or not, given those of the lines before.
pub fn one(frame: &Frame, earlier: &[Sort]) -> Sort {
    let of = |line: &u8| earlier.get(usize::from(*line)).cloned().unwrap_or_default();
    let without = |sort: Sort, list: &[u8]| sort.into_iter().filter(|a| !list.contains(&(a / 2))).collect();
    match frame {
        Frame::Leaf { triples, .. } => {
            triples.iter().map(|t| t.action).filter(|a| *a > 0 && *a != EXIT).collect()
        }
        Frame::Compose(i, j)
        | Frame::Enable { first: i, second: j }
        | Frame::Disable { first: i, second: j } => &of(i) | &of(j),
        Frame::Restrict(i, list) | Frame::Hide(i, list) => without(of(i), list),
        Frame::Relabel { of: i, old, new } => {
            let renamed = |a: u8| if a / 2 == *old { 2 * new + a % 2 } else { a };
            of(i).into_iter().map(renamed).collect()
        }
        Frame::Joint(i, j, list) => {
            let together = (&of(i) & &of(j)).into_iter().filter(|a| list.contains(&(a / 2)));
            let alone: Sort = without(&of(i) | &of(j), list);
            alone.into_iter().chain(together).collect()
        }
    }
}

/// The channels on which some line's process may take an input.
pub fn inputs(model: &Model) -> BTreeSet<u8> {
    let mut all: Vec<Sort> = Vec::new();
    for frame in &model.frames {
        let next = one(frame, &all);
        all.push(next);
    }
    all.iter().flatten().filter(|a| *a % 2 == 1).map(|a| a / 2).collect()
}

/// Of each line, whether its process may exit. Where not, it never does.
pub fn exits(model: &Model) -> Vec<bool> {
    let mut all: Vec<bool> = Vec::new();
    for frame in &model.frames {
        let of = |line: &u8| all.get(usize::from(*line)).copied().unwrap_or(false);
        let next = match frame {
            Frame::Leaf { triples, .. } => triples.iter().any(|t| t.action == EXIT),
            Frame::Restrict(i, _) | Frame::Hide(i, _) | Frame::Relabel { of: i, .. } => of(i),
            Frame::Compose(i, j) | Frame::Disable { first: i, second: j } => of(i) || of(j),
            // the second of an enabling starts only when the first exits
            Frame::Joint(i, j, _) | Frame::Enable { first: i, second: j } => of(i) && of(j),
        };
        all.push(next);
    }
    all
}
