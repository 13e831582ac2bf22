//! The states of a model: their codes, and how they are written.

use crate::frames::Model;
use crate::names::Names;
use crate::words::spelled;
use seipolku::{Layout, LeafUse};

pub struct Space {
    layout: Layout,
    /// The leaf uses, lowest bits first.
    pub parts: Vec<LeafUse>,
}

impl Space {
    /// The states of the last line's process, of lines that the library accepts.
    pub fn of(model: &Model) -> Space {
        let layout = model.layout().unwrap_or_default();
        Space { parts: layout.leaves(), layout }
    }

    /// The bits of a code, with those that are added.
    pub fn bits(&self) -> u32 {
        self.layout.bits
    }

    /// The bits that enablings and disablings add.
    pub fn added(&self) -> u32 {
        self.layout.added()
    }

    /// How many states there are, reachable or not.
    pub fn states(&self) -> u64 {
        self.layout.states
    }

    /// Every state's code, ascending.
    pub fn all_codes(&self) -> Vec<u64> {
        self.layout.codes()
    }

    /// A state leaf by leaf: each leaf's name with its state's name. Uses of one leaf are told apart by a number. Of an enabling or a
    /// disabling the leaves of the operands that are alive are named, and no others; so the leaves that are named tell which these are.
    pub fn named(&self, code: u64, names: &Names) -> Vec<String> {
        let alive = self.layout.alive(code).unwrap_or_default();
        let mut spelled_parts = Vec::new();
        for (k, part) in self.parts.iter().enumerate().filter(|(k, _)| alive.get(*k) == Some(&true)) {
            let uses = self.parts.iter().filter(|p| p.line == part.line).count();
            let earlier = self.parts[..k].iter().filter(|p| p.line == part.line).count();
            let mark = if uses > 1 { format!("#{}", earlier + 1) } else { String::new() };
            let state = names.state(part.line, part.state(code) as usize);
            spelled_parts.push(format!("{}{mark}={}", spelled(&names.process(part.line)), spelled(&state)));
        }
        spelled_parts
    }

    pub fn words(&self, code: u64, names: &Names) -> String {
        self.named(code, names).join(" ")
    }
}
