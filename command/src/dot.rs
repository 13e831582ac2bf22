//! A picture for Graphviz.

use crate::names::Names;
use crate::reach::Listed;
use crate::words::short_action;
use std::collections::BTreeMap;

/// The listed states with their steps; the start has an arrow without origin, internal steps are dashed.
pub fn print(listed: &Listed, names: &Names, title: &str) -> String {
    let mut text =
        format!("digraph {} {{\n  rankdir=LR;\n  node [shape=box, style=rounded];\n", quoted(title));
    text += "  start [shape=point];\n";
    for (index, code) in listed.codes.iter().enumerate() {
        let label: Vec<String> = listed.space.named(*code, names).iter().map(|part| escaped(part)).collect();
        text += &format!("  s{index} [label=\"{}\"];\n", label.join("\\n"));
    }
    if let Some(start) = listed.codes.iter().position(|c| *c == 0) {
        text += &format!("  start -> s{start};\n");
    }
    for ((from, to, internal), labels) in edges(listed, names) {
        let style = if internal { ", style=dashed" } else { "" };
        text += &format!("  s{from} -> s{to} [label=\"{}\"{style}];\n", labels.join("\\n"));
    }
    text + "}\n"
}

/// One arrow for all visible steps between two states, and one for the internal step.
fn edges(listed: &Listed, names: &Names) -> BTreeMap<(usize, usize, bool), Vec<String>> {
    let mut edges: BTreeMap<(usize, usize, bool), Vec<String>> = BTreeMap::new();
    for (from, action, to) in &listed.steps {
        let label = escaped(&short_action(*action, names));
        edges.entry((*from, *to, *action == 0)).or_default().push(label);
    }
    edges
}

fn quoted(text: &str) -> String {
    format!("\"{}\"", escaped(text))
}

fn escaped(text: &str) -> String {
    text.replace('\\', "\\\\").replace('"', "\\\"").replace(char::is_control, "?")
}
