//! Where the nodes of a comparison went, stage by stage.

use crate::outcome::grouped;
use seipolku::Nodes;

/// What a comparison works out in its table, one after the other.
#[derive(Clone, Copy, Debug, PartialEq, Eq, PartialOrd)]
pub enum Stage {
    /// The steps of both models.
    Relations,
    /// Their weak steps: those with internal steps before and after.
    Answers,
    /// What is worked out from both, round by round.
    Comparison,
}

/// The length of a bar for all nodes. A line with it has 79 characters.
const LONGEST_BAR: u64 = 28;

/// The nodes up to each stage, that stage's own among them.
fn so_far(nodes: Nodes) -> [(Stage, u64); 3] {
    [(Stage::Relations, nodes.relations), (Stage::Answers, nodes.answers), (Stage::Comparison, nodes.whole)]
}

/// The stage up to which a table that is too small is filled; nothing where no node fits into it.
pub fn filling(nodes: Nodes) -> Option<Stage> {
    let full = |(_, number): &(Stage, u64)| *number == nodes.whole;
    so_far(nodes).into_iter().find(full).filter(|_| nodes.whole > 0).map(|(stage, _)| stage)
}

/// A line for each stage of an answered comparison: its own nodes, the nodes up to it, its share of the whole, and a bar as long as that.
pub fn table(nodes: Nodes) -> String {
    lines(nodes, Some(Stage::Comparison), '#')
}

/// The same of a table that is too small, without numbers for the stages after the one that fills it, whose bar has another end.
pub fn full_table(nodes: Nodes) -> String {
    lines(nodes, filling(nodes), '>')
}

/// The lines of all stages, with numbers up to the last one of these, whose bar has this end.
fn lines(nodes: Nodes, last: Option<Stage>, end: char) -> String {
    let mut text = line("stage", "nodes", "so far", "share", "");
    let mut before = 0;
    for (stage, number) in so_far(nodes) {
        let own = number.saturating_sub(before);
        let mut bar = "#".repeat(bar_length(own, nodes.whole) as usize);
        if Some(stage) == last && bar.pop().is_some() {
            bar.push(end);
        }
        text += &match Some(stage) <= last {
            true => line(name(stage), &grouped(own), &grouped(number), &share(own, nodes.whole), &bar),
            false => line(name(stage), "-", "-", "-", ""),
        };
        before = number;
    }
    text
}

fn line(stage: &str, own: &str, so_far: &str, share: &str, bar: &str) -> String {
    let line = format!("        {stage:<12}  {own:>9}  {so_far:>9}  {share:>5}  {bar}");
    format!("{}\n", line.trim_end())
}

fn name(stage: Stage) -> &'static str {
    match stage {
        Stage::Relations => "relations",
        Stage::Answers => "weak answers",
        Stage::Comparison => "comparison",
    }
}

/// A part in percent of the whole. Only nothing is written as 0 %, and only all as 100 %.
fn share(part: u64, whole: u64) -> String {
    match scaled(part, whole, 100) {
        0 if part > 0 => "<1 %".to_string(),
        100 if part < whole => ">99 %".to_string(),
        percent => format!("{percent} %"),
    }
}

/// At least one mark for a part that is not nothing.
fn bar_length(part: u64, whole: u64) -> u64 {
    scaled(part, whole, LONGEST_BAR).max(part.min(1))
}

/// The part where the whole is `length`, to the nearest number.
fn scaled(part: u64, whole: u64, length: u64) -> u64 {
    (2 * part * length + whole).checked_div(2 * whole).unwrap_or(0)
}

#[cfg(test)]
mod tests {
    use super::*;

    const NONE: Nodes = Nodes { relations: 0, answers: 0, whole: 0 };

    fn nodes(relations: u64, answers: u64, whole: u64) -> Nodes {
        Nodes { relations, answers, whole }
    }

    #[test]
    fn the_first_stage_that_fills() {
        for (numbers, stage) in [
            (nodes(298, 298, 298), Some(Stage::Relations)),
            (nodes(62, 298, 298), Some(Stage::Answers)),
            (nodes(62, 297, 298), Some(Stage::Comparison)),
            (nodes(0, 1, 1), Some(Stage::Answers)),
            (NONE, None),
        ] {
            assert_eq!(filling(numbers), stage, "{numbers:?}");
        }
    }

    #[test]
    fn shares() {
        for (part, whole, percent, bar) in [
            (0, 12, "0 %", 0),
            (6, 12, "50 %", 14),
            (12, 12, "100 %", 28),
            (1, 1_048_574, "<1 %", 1),
            (1_048_573, 1_048_574, ">99 %", 28),
            (1, 8, "13 %", 4),
            (0, 0, "0 %", 0),
        ] {
            assert_eq!((&share(part, whole)[..], bar_length(part, whole)), (percent, bar), "{part} {whole}");
        }
    }

    #[test]
    fn lines_of_a_terminal() {
        let most = 1_048_574;
        for numbers in
            [NONE, nodes(0, 6, 12), nodes(most, most, most), nodes(0, most, most), nodes(0, 0, most)]
        {
            for lines in [table(numbers), full_table(numbers)] {
                assert_eq!(lines.lines().count(), 4);
            }
            for line in (table(numbers) + &full_table(numbers)).lines() {
                assert!(line.len() < 80 && line.chars().all(|c| (' '..='~').contains(&c)), "{line}");
                assert_eq!(line, line.trim_end());
            }
        }
    }
}
