//! A model as written: channels, leaves and operators by name, with their places in the file.

use crate::aut::{Aut, Label};
use crate::frames::MOST_STATES;
use std::collections::BTreeSet;

#[derive(Clone, Debug, PartialEq, Eq)]
pub struct Named {
    pub name: String,
    pub line: usize,
    pub column: usize,
}

#[derive(Debug)]
pub struct Declared {
    pub channel: Named,
    pub gate: bool,
    pub number: Option<u8>,
}

#[derive(Debug)]
pub enum Act {
    Tau,
    Exit,
    Output(Named),
    Input(Named),
    /// A gate's name alone.
    Gate(Named),
}

#[derive(Debug)]
pub struct Step {
    pub from: Named,
    pub act: Act,
    pub to: Named,
}

#[derive(Debug)]
pub enum Body {
    /// Without declared states, these are the ones that the steps name, in their order.
    Leaf {
        states: Vec<Named>,
        steps: Vec<Step>,
    },
    Compose(Vec<Named>),
    Restrict(Named, Vec<Named>),
    Relabel(Named, Vec<(Named, Named)>),
    Hide(Named, Vec<Named>),
    Joint(Named, Named, Vec<Named>),
    Enable(Vec<Named>),
    Disable(Vec<Named>),
}

#[derive(Debug)]
pub struct Definition {
    pub name: Named,
    pub body: Body,
}

#[derive(Debug, Default)]
pub struct Source {
    pub channels: Vec<Declared>,
    pub definitions: Vec<Definition>,
}

/// Where the parts of an .aut file are said to stand.
#[derive(Clone, Copy, PartialEq, Eq)]
pub enum Places {
    /// In the .aut file itself.
    Own,
    /// In the file that names it, at the leaf.
    Leaf,
}

impl Source {
    /// Adds a leaf with an .aut file's states and transitions. States are named by their numbers; the first state changes places
    /// with state 0, since a leaf starts at 0. Repeats are left out.
    pub fn add_aut(&mut self, name: Named, aut: &Aut, places: Places) -> Result<(), String> {
        if aut.states > MOST_STATES {
            return Err(format!(
                "the .aut file has {} states, and a leaf has at most {MOST_STATES}; reduce it (many tools minimise by strong \
                 bisimilarity), or split it into parts that are composed.",
                aut.states
            ));
        }
        let mut order: Vec<usize> = (0..aut.states).collect();
        order.swap(0, aut.first);
        let here = |word: String| Named { name: word, line: name.line, column: name.column };
        let states = order.iter().map(|s| here(s.to_string())).collect();
        let mut steps = Vec::new();
        let (mut seen, mut declared) = (BTreeSet::new(), BTreeSet::new());
        for (t, place) in aut.transitions.iter().zip(&aut.places).filter(|(t, _)| seen.insert(*t)) {
            let (line, column) = if places == Places::Own { *place } else { (name.line, name.column) };
            let at = |word: &str| Named { name: word.to_string(), line, column };
            let (act, channel) = act(&t.label, at);
            if let Some((channel, gate)) =
                channel.filter(|(c, gate)| declared.insert((c.name.clone(), *gate)))
            {
                self.channels.push(Declared { channel, gate, number: None });
            }
            steps.push(Step { from: at(&t.from.to_string()), act, to: at(&t.to.to_string()) });
        }
        self.definitions.push(Definition { name, body: Body::Leaf { states, steps } });
        Ok(())
    }
}

/// A label as an action, and the channel that it uses, as a gate or not.
fn act(label: &Label, at: impl Fn(&str) -> Named) -> (Act, Option<(Named, bool)>) {
    match label {
        Label::Internal => (Act::Tau, None),
        Label::Exit => (Act::Exit, None),
        Label::Output(a) => (Act::Output(at(a)), Some((at(a), false))),
        Label::Input(a) => (Act::Input(at(a)), Some((at(a), false))),
        Label::Gate(a) => (Act::Gate(at(a)), Some((at(a), true))),
    }
}
