//! Where the nodes of a comparison went.

use crate::ffi;

/// The nodes of a comparison by stages. Each number holds the ones before it, so that they never fall.
///
/// An answered comparison has all three exactly. With [`Fault::Full`](crate::Fault::Full) a number above the nodes that fit into the table,
/// which are two fewer than its entries, is given as these; the others are exact, and `whole` is always these. So what fills the table is the
/// first of the three that is as large as `whole`: the relations, the weak answers, or the comparison itself.
///
/// ```
/// # use seipolku::{Fault, Nodes, Table};
/// let (left, right) = (b"000102000201\n", b"000103000001010202\n");
/// let nodes = Table::new(4096).unwrap().compare(left, right, 1_000_000).unwrap().nodes;
/// assert_eq!(nodes, Nodes { relations: 62, answers: 384, whole: 956 });
///
/// let refusal = Table::new(300).unwrap().compare(left, right, 1_000_000).unwrap_err();
/// assert_eq!(refusal.fault, Fault::Full(Nodes { relations: 62, answers: 298, whole: 298 }));
/// ```
#[derive(Clone, Copy, Debug, PartialEq, Eq)]
pub struct Nodes {
    /// Those of the relations, that is, the steps of both models.
    pub relations: u64,
    /// Those up to the weak answers: of both relations and both weak answers, before any iterate.
    pub answers: u64,
    /// Those of the whole list, that is, with the iterates of both verdicts.
    pub whole: u64,
}

impl Nodes {
    /// The nodes that the words of an answer, or of a refusal with 8, tell.
    pub(crate) fn of(answer: &[u64; ffi::ANSWER_WORDS]) -> Nodes {
        Nodes { relations: answer[9], answers: answer[10], whole: answer[8] }
    }
}
