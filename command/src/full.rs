//! Refusal 8 in words: what fills the table, and what to do about it.

use crate::outcome::{counted, grouped};
use crate::proved::{Lent, ENTRIES};
use crate::refusals::Call;
use crate::stages::{self, Stage};
use crate::words::word;
use seipolku::{Mode, Nodes};

/// How many nodes fit, and what fills the table. It is true where a stage needs more nodes than are left for it, and where it needs just as
/// many and the next one finds no room.
pub fn detail(nodes: Nodes, entries: u64) -> String {
    let filled = match stages::filling(nodes) {
        None => String::new(),
        Some(Stage::Relations) => {
            " The steps of the two models (the relations) fill the table, and no room is left to compare them.".to_string()
        }
        Some(Stage::Answers) => format!(
            " The steps of the two models (the relations) take {}. Their weak steps (the weak answers), with internal steps before and after, \
             fill the rest, and no room is left to compare them.",
            counted(nodes.relations, "node")
        ),
        Some(Stage::Comparison) => format!(
            " The steps and weak steps of the two models (the relations and the weak answers) take {}. The comparison itself does not fit into \
             the rest, {}.",
            counted(nodes.answers, "node"),
            counted(nodes.whole - nodes.answers, "node")
        ),
    };
    format!(
        "  {} into {} entries.{filled}\n  Both verdicts are worked out in one table, so neither is given, also where one alone would fit.\n",
        fit(nodes.whole, "node"),
        grouped(entries)
    )
}

/// "1 node fits", "2 nodes fit".
fn fit(number: u64, thing: &str) -> String {
    format!("{} {}", counted(number, thing), if number == 1 { "fits" } else { "fit" })
}

/// What to do. Where the table has its greatest length it is free now, and is asked what helps.
pub fn advice(nodes: Nodes, call: &Call, table: &mut Lent) -> String {
    let smaller = stages::filling(nodes).map(smaller);
    match (smaller, call.entries) {
        (Some(smaller), ENTRIES) => format!("{smaller}. {}", by_limit(call, table)),
        (smaller, _) => {
            let or = smaller.map_or_else(String::new, |smaller| format!(". Or {smaller}"));
            let most = grouped(ENTRIES);
            format!("give --nodes a larger number, or leave it out, which gives the largest table, of {most} entries{or}")
        }
    }
}

/// What makes the nodes up to a stage fewer. A model may have no internal step, and its weak steps fill a table all the same.
fn smaller(stage: Stage) -> &'static str {
    match stage {
        Stage::Relations => {
            "make the models smaller, with fewer leaves, or fewer states and steps in a leaf; or compare a part by itself"
        }
        Stage::Answers => {
            "put leaves that communicate next to each other, and have fewer internal steps if there are any (tau in the leaves, hidden channels); \
             or make the models smaller, with fewer leaves, or fewer states and steps in a leaf; or compare a part by itself"
        }
        Stage::Comparison => {
            "make the models smaller, with fewer leaves, or fewer states and steps in a leaf; or make the weak answers smaller, which leaves more room: \
             put leaves that communicate next to each other, and have fewer internal steps if there are any (tau in the leaves, hidden channels); \
             or compare a part by itself"
        }
    }
}

/// What a smaller limit gives where the largest table is full. Fewer rounds need fewer nodes, so that a smaller limit may fit and give one
/// verdict; both never, since their list would be the refused one.
fn by_limit(call: &Call, table: &mut Lent) -> String {
    let largest = "No table is larger than this one";
    match fitting(call, table) {
        Fitting { rounds: 0, .. } => format!("{largest}, and no limit helps: not one round fits"),
        Fitting { rounds, verdict: None } => {
            format!("{largest}, and no limit helps: {}, without a verdict", fit(rounds, "round"))
        }
        Fitting { rounds, verdict: Some(mode) } if call.modes.contains(&mode) => {
            format!("{largest}, but --limit {rounds} gives the {} verdict alone", word(mode))
        }
        Fitting { rounds, verdict: Some(mode) } => {
            let asked = call.modes.iter().map(|mode| word(*mode)).collect::<Vec<_>>().join(" and ");
            format!(
                "{largest}, and no limit gives the {asked} verdict; --limit {rounds} gives the {} one",
                word(mode)
            )
        }
    }
}

/// Rounds that fit, and the verdict that falls by them; or the most rounds that fit, and no verdict.
struct Fitting {
    rounds: u64,
    verdict: Option<Mode>,
}

/// The limits that fit are searched upwards in growing steps, up to a verdict.
fn fitting(call: &Call, table: &mut Lent) -> Fitting {
    let (mut fits, mut full, mut step) = (0, call.limit, 1);
    while fits + 1 < full {
        let limit = fits.saturating_add(step).min(full - 1);
        match table.get().and_then(|table| table.compare(call.texts[0], call.texts[1], limit)) {
            Ok(both) => {
                let fallen = |mode: &Mode| both.verdict(*mode).rounds().is_some();
                if let Some(mode) = [Mode::Strong, Mode::Weak].into_iter().find(fallen) {
                    return Fitting { rounds: limit, verdict: Some(mode) };
                }
                (fits, step) = (limit, step.saturating_mul(2));
            }
            Err(_) => (full, step) = (limit, 1),
        }
    }
    Fitting { rounds: fits, verdict: None }
}

/// What fills the largest table where the steps of one model are listed. Its weak steps are worked out with them, and then the start of a
/// comparison with no round.
pub fn of_steps(nodes: Nodes) -> String {
    let entries = grouped(ENTRIES);
    match stages::filling(nodes) {
        None | Some(Stage::Relations) => {
            format!("the model's steps fill a table of {entries} entries, and none is larger")
        }
        Some(Stage::Answers) => format!(
            "the model's steps and weak steps are worked out together: the steps take {}, and the weak steps fill the rest of a table of {entries} \
             entries; none is larger",
            counted(nodes.relations, "node")
        ),
        Some(Stage::Comparison) => format!(
            "the model's steps and weak steps take {}, and what is worked out after them does not fit into the rest of a table of {entries} \
             entries; none is larger",
            counted(nodes.answers, "node")
        ),
    }
}

#[cfg(test)]
mod tests {
    use super::*;

    /// Where the steps of one model are listed, also where its steps and weak steps leave too little for the start of a comparison.
    #[test]
    fn what_fills_a_listing() {
        let room = ENTRIES - 2;
        for ((relations, answers), words) in [
            ((room, room), "the model's steps fill a table"),
            ((1, room), "the steps take 1 node, and the weak steps fill the rest of a table"),
            ((1, 5_000), "the model's steps and weak steps take 5,000 nodes, and what is worked out after them does not fit"),
        ] {
            let sentence = of_steps(Nodes { relations, answers, whole: room });
            assert!(sentence.contains(words) && sentence.ends_with("none is larger"), "{sentence}");
        }
    }
}
