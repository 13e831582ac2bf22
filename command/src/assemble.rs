//! From a model as written to its lines and its name table.

use crate::frames::{Frame, Model, Triple, EXIT, MOST_BYTES, MOST_LINES, MOST_STATES, MOST_TRIPLES};
use crate::names::Names;
use crate::numbering::Numbering;
use crate::outcome::{misplaced, Misplaced};
use crate::sorts::{self, Sort};
use crate::source::{Act, Body, Declared, Definition, Named, Source, Step};
use crate::syntax::{NESTED, OPERATORS};
use std::collections::BTreeMap;

type Assembled<T> = Result<T, Misplaced>;

/// A model, its names, and for each of its lines the line of the file that it comes from.
#[derive(Default)]
pub struct Built {
    pub model: Model,
    pub names: Names,
    pub origins: Vec<usize>,
}

/// Notes the channels of a file, before numbers are given.
pub fn declare(source: &Source, numbering: &mut Numbering) -> Assembled<()> {
    for declared in &source.channels {
        let place = &declared.channel;
        numbering
            .declare(&place.name, declared.gate, declared.number)
            .map_err(|sentence| Misplaced::new(place.line, place.column, sentence))?;
    }
    Ok(())
}

pub fn assemble(source: &Source, numbering: &Numbering) -> Assembled<Built> {
    let mut declared: BTreeMap<&str, bool> = BTreeMap::new();
    for Declared { channel, gate, .. } in &source.channels {
        declared.insert(&channel.name, *gate);
    }
    let mut assembler = Assembler { declared, numbering, built: Built::default(), sorts: Vec::new() };
    for definition in &source.definitions {
        assembler.define(definition)?;
    }
    let Assembler { mut built, declared, .. } = assembler;
    let numbers: Vec<u8> = declared.keys().filter_map(|name| numbering.number(name)).collect();
    built.names.channels = numbering.named(&numbers).collect();
    Ok(built)
}

struct Assembler<'a> {
    /// Declared names, and whether they are gates.
    declared: BTreeMap<&'a str, bool>,
    numbering: &'a Numbering,
    built: Built,
    /// The actions of the lines so far.
    sorts: Vec<Sort>,
}

impl Assembler<'_> {
    fn define(&mut self, definition: &Definition) -> Assembled<()> {
        let name = &definition.name;
        if self.built.names.processes.values().any(|n| *n == name.name) {
            let sentence =
                format!("there is a process '{}' above already; give this one another name.", name.name);
            return misplaced(name.line, name.column, sentence);
        }
        let line = match &definition.body {
            Body::Leaf { states, steps } => self.leaf(name, states, steps)?,
            Body::Compose(operands) => self.chained(name, operands, Frame::Compose)?,
            Body::Enable(operands) => {
                self.chained(name, operands, |first, second| Frame::Enable { first, second })?
            }
            Body::Disable(operands) => {
                self.chained(name, operands, |first, second| Frame::Disable { first, second })?
            }
            Body::Restrict(of, list) => Frame::Restrict(self.process(of)?, self.list(name, list)?),
            Body::Hide(of, list) => Frame::Hide(self.process(of)?, self.list(name, list)?),
            Body::Joint(one, other, list) => {
                Frame::Joint(self.process(one)?, self.process(other)?, self.list(name, list)?)
            }
            Body::Relabel(of, changes) => self.relabel(name, of, changes)?,
        };
        let number = self.add(name, line)?;
        self.built.names.processes.insert(usize::from(number), name.name.clone());
        Ok(())
    }

    fn add(&mut self, name: &Named, frame: Frame) -> Assembled<u8> {
        let number = self.built.model.frames.len();
        if number >= MOST_LINES {
            let sentence = format!("this definition makes line {number}, but a model has {MOST_LINES} lines, 0 to 63; use fewer definitions, or fewer operands: each one after the second makes a line, and so does each change of a relabel after the first.");
            return misplaced(name.line, name.column, sentence);
        }
        self.sorts.push(sorts::one(&frame, &self.sorts));
        self.gates_without_inputs(name)?;
        self.built.model.frames.push(frame);
        self.built.origins.push(name.line);
        Ok(number as u8)
    }

    /// A gate's name stands without a direction, so that an input on it could not be told from an output.
    fn gates_without_inputs(&self, name: &Named) -> Assembled<()> {
        let number = |gate: &&str| self.numbering.number(gate);
        let inputs = |gate: &&str| number(gate).is_some_and(|n| self.has_input(n));
        let gate = self.declared.iter().filter(|(_, gate)| **gate).map(|(name, _)| *name).find(inputs);
        match gate {
            None => Ok(()),
            Some(gate) => {
                let sentence = format!(
                    "in '{}' the gate '{gate}' gets inputs by relabelling, and a gate has none; declare it with 'channels'.",
                    name.name
                );
                misplaced(name.line, name.column, sentence)
            }
        }
    }

    fn has_input(&self, channel: u8) -> bool {
        self.sorts.last().is_some_and(|sort| sort.contains(&(2 * channel + 1)))
    }

    fn process(&self, named: &Named) -> Assembled<u8> {
        let found = self.built.names.processes.iter().find(|(_, name)| **name == named.name);
        match found {
            Some((line, _)) => Ok(*line as u8),
            None if OPERATORS.contains(&&named.name[..]) => misplaced(named.line, named.column, NESTED),
            None => misplaced(
                named.line,
                named.column,
                format!(
                    "there is no process '{}' above this line; define it before, or correct the name.",
                    named.name
                ),
            ),
        }
    }

    fn channel(&self, named: &Named) -> Assembled<u8> {
        let declared = self.declared.contains_key(&named.name[..]);
        match self.numbering.number(&named.name).filter(|_| declared) {
            Some(number) => Ok(number),
            None => misplaced(
                named.line,
                named.column,
                format!(
                    "'{}' is not declared; add it to a 'channels' or 'gates' line, or correct the name.",
                    named.name
                ),
            ),
        }
    }

    fn list(&self, name: &Named, channels: &[Named]) -> Assembled<Vec<u8>> {
        if channels.len() > MOST_BYTES - 4 {
            let sentence = format!(
                "{} channels are listed, more than a line holds; name each one once.",
                channels.len()
            );
            return misplaced(name.line, name.column, sentence);
        }
        channels.iter().map(|c| self.channel(c)).collect()
    }

    /// More than two operands go from left to right, over lines without a name.
    fn chained(&mut self, name: &Named, operands: &[Named], frame: fn(u8, u8) -> Frame) -> Assembled<Frame> {
        let numbers: Vec<u8> = operands.iter().map(|o| self.process(o)).collect::<Assembled<_>>()?;
        let [first, inner @ .., last] = &numbers[..] else {
            return misplaced(
                name.line,
                name.column,
                "compose takes two processes or more; name them after it.",
            );
        };
        let mut total = *first;
        for operand in inner {
            total = self.add(name, frame(total, *operand))?;
        }
        Ok(frame(total, *last))
    }

    /// Several changes go from left to right, one after the other.
    fn relabel(&mut self, name: &Named, of: &Named, changes: &[(Named, Named)]) -> Assembled<Frame> {
        let mut of = self.process(of)?;
        let [earlier @ .., last] = changes else {
            return misplaced(
                name.line,
                name.column,
                "relabel takes 'OLD to NEW' after the process; add it.",
            );
        };
        for (old, new) in earlier {
            let frame = Frame::Relabel { of, old: self.channel(old)?, new: self.channel(new)? };
            of = self.add(name, frame)?;
        }
        Ok(Frame::Relabel { of, old: self.channel(&last.0)?, new: self.channel(&last.1)? })
    }

    fn leaf(&mut self, name: &Named, declared: &[Named], steps: &[Step]) -> Assembled<Frame> {
        let mut states: Vec<&Named> = declared.iter().collect();
        if declared.is_empty() {
            name_states(name, steps, &mut states)?;
        }
        if states.is_empty() {
            return misplaced(
                name.line,
                name.column,
                "this leaf has no state; add a 'states' line or steps below it.",
            );
        }
        let triples = self.triples(name, &states, steps)?;
        let line = self.built.model.frames.len();
        for (number, state) in states.iter().enumerate() {
            self.built.names.states.insert((line, number), state.name.clone());
        }
        Ok(Frame::Leaf { states: states.len() as u8, triples })
    }

    fn triples(&self, name: &Named, states: &[&Named], steps: &[Step]) -> Assembled<Vec<Triple>> {
        if let Some(step) = steps.get(MOST_TRIPLES) {
            let sentence = format!(
                "the leaf '{}' has {} steps, and a leaf has at most {MOST_TRIPLES}; reduce it, or split it into leaves that are composed.",
                name.name,
                steps.len()
            );
            return misplaced(step.from.line, step.from.column, sentence);
        }
        let state = |named: &Named| match states.iter().position(|s| s.name == named.name) {
            Some(number) => Ok(number as u8),
            None => {
                let sentence = format!(
                    "'{}' is no state of the leaf '{}'; add it to its 'states' line, or correct the name.",
                    named.name, name.name
                );
                misplaced(named.line, named.column, sentence)
            }
        };
        steps
            .iter()
            .map(|s| Ok(Triple { from: state(&s.from)?, action: self.action(&s.act)?, to: state(&s.to)? }))
            .collect()
    }

    fn action(&self, act: &Act) -> Assembled<u8> {
        match act {
            Act::Tau => Ok(0),
            Act::Exit => Ok(EXIT),
            Act::Output(channel) => Ok(2 * self.channel(channel)?),
            Act::Input(channel) if self.declared.get(&channel.name[..]) == Some(&true) => {
                let sentence = format!(
                    "'{}' is a gate, and a gate has no inputs; declare it with 'channels', or leave out 'in'.",
                    channel.name
                );
                misplaced(channel.line, channel.column, sentence)
            }
            Act::Input(channel) => Ok(2 * self.channel(channel)? + 1),
            Act::Gate(channel) => {
                let number = self.channel(channel)?;
                if self.declared.get(&channel.name[..]) != Some(&true) {
                    let sentence = format!(
                        "'{}' is a channel; write 'out' or 'in' before it, or declare it as a gate.",
                        channel.name
                    );
                    return misplaced(channel.line, channel.column, sentence);
                }
                Ok(2 * number)
            }
        }
    }
}

/// The states that the steps name, in their order.
fn name_states<'a>(leaf: &Named, steps: &'a [Step], states: &mut Vec<&'a Named>) -> Assembled<()> {
    for named in steps.iter().flat_map(|s| [&s.from, &s.to]) {
        if states.iter().any(|s| s.name == named.name) {
            continue;
        }
        if states.len() >= MOST_STATES {
            let sentence = format!(
                "'{}' is one state too many for the leaf '{}': a leaf has at most {MOST_STATES}. Reduce it, or split it into leaves \
                 that are composed.",
                named.name, leaf.name
            );
            return misplaced(named.line, named.column, sentence);
        }
        states.push(named);
    }
    Ok(())
}
