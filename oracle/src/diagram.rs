//! Boolean functions as ordered, reduced, shared decision diagrams.

/// A function of a diagram; equal functions have equal numbers.
#[derive(Clone, Copy, Debug, PartialEq, Eq, PartialOrd, Ord)]
pub struct Function(u32);

pub const FALSE: Function = Function(0);
pub const TRUE: Function = Function(1);

impl Function {
    pub fn is_constant(self) -> bool {
        self <= TRUE
    }

    pub fn index(self) -> usize {
        self.0 as usize
    }
}

#[derive(Clone, Copy, PartialEq, Eq)]
struct Node {
    level: u8,
    low: Function,
    high: Function,
}

/// The level of both constants, above every variable's.
const BOTTOM: u8 = u8::MAX;

#[derive(Clone, Copy, Debug, PartialEq, Eq)]
pub enum Operator {
    And,
    Or,
}

impl Operator {
    /// The constant that decides the result alone.
    fn dominant(self) -> Function {
        match self {
            Operator::And => FALSE,
            Operator::Or => TRUE,
        }
    }

    /// The constant that leaves the other operand as it is.
    fn neutral(self) -> Function {
        match self {
            Operator::And => TRUE,
            Operator::Or => FALSE,
        }
    }
}

/// What a remembered result belongs to.
#[derive(Clone, Copy, PartialEq, Eq)]
struct Key {
    task: u32,
    first: u32,
    second: u32,
}

const NO_TASK: u32 = u32::MAX;
const NOT: u32 = 2;
const FIX: u32 = 3;

#[derive(Clone, Copy)]
struct Remembered {
    key: Key,
    result: Function,
}

const FORGOTTEN: Remembered = Remembered { key: Key { task: NO_TASK, first: 0, second: 0 }, result: FALSE };

const FIRST_SIZE: usize = 1 << 10;
const MAX_MEMO: usize = 1 << 22;

pub struct Diagram {
    nodes: Vec<Node>,
    /// Open addressing over node numbers; 0 marks a free slot.
    slots: Vec<u32>,
    /// One place a hash; a newer result replaces an older one.
    memo: Vec<Remembered>,
}

impl Default for Diagram {
    fn default() -> Self {
        let constant = |f| Node { level: BOTTOM, low: f, high: f };
        Diagram {
            nodes: vec![constant(FALSE), constant(TRUE)],
            slots: vec![0; FIRST_SIZE],
            memo: vec![FORGOTTEN; FIRST_SIZE],
        }
    }
}

impl Diagram {
    /// Number of functions made so far, the constants included.
    pub fn size(&self) -> usize {
        self.nodes.len()
    }

    /// The functions with the highest variable fixed to 0 and to 1.
    pub fn branches(&self, f: Function) -> (Function, Function) {
        let node = self.nodes[f.index()];
        (node.low, node.high)
    }

    /// The value of `f` where each variable has the value that `bit` gives its level.
    pub fn value(&self, mut f: Function, bit: impl Fn(u8) -> bool) -> bool {
        while !f.is_constant() {
            let node = self.nodes[f.index()];
            f = if bit(node.level) { node.high } else { node.low };
        }
        f == TRUE
    }

    pub fn node(&mut self, level: u8, low: Function, high: Function) -> Function {
        if low == high {
            return low;
        }
        let node = Node { level, low, high };
        let slot = self.slot(node);
        if self.slots[slot] != 0 {
            return Function(self.slots[slot]);
        }
        let made = self.nodes.len() as u32;
        self.nodes.push(node);
        self.slots[slot] = made;
        if self.nodes.len() * 2 > self.slots.len() {
            self.grow();
        }
        Function(made)
    }

    /// The slot that holds this node, or the free one where it belongs.
    fn slot(&self, node: Node) -> usize {
        let mask = self.slots.len() - 1;
        let mut slot = hash(node.level.into(), node.low.0, node.high.0) & mask;
        while self.slots[slot] != 0 && self.nodes[self.slots[slot] as usize] != node {
            slot = (slot + 1) & mask;
        }
        slot
    }

    fn grow(&mut self) {
        self.slots = vec![0; self.slots.len() * 2];
        for number in 2..self.nodes.len() {
            let slot = self.slot(self.nodes[number]);
            self.slots[slot] = number as u32;
        }
        if self.memo.len() < MAX_MEMO {
            self.memo = vec![FORGOTTEN; self.memo.len() * 2];
        }
    }

    fn remembered(&self, key: Key) -> Option<Function> {
        let place = &self.memo[self.place(key)];
        (place.key == key).then_some(place.result)
    }

    fn remember(&mut self, key: Key, result: Function) -> Function {
        let place = self.place(key);
        self.memo[place] = Remembered { key, result };
        result
    }

    fn place(&self, key: Key) -> usize {
        hash(key.task, key.first, key.second) & (self.memo.len() - 1)
    }

    pub fn combine(&mut self, operator: Operator, f: Function, g: Function) -> Function {
        if f == operator.dominant() || g == operator.neutral() || f == g {
            return f;
        }
        if g == operator.dominant() || f == operator.neutral() {
            return g;
        }
        let (f, g) = (f.min(g), f.max(g));
        let key = Key { task: operator as u32, first: f.0, second: g.0 };
        if let Some(result) = self.remembered(key) {
            return result;
        }
        let level = self.nodes[f.index()].level.min(self.nodes[g.index()].level);
        let (f_low, f_high) = self.split(f, level);
        let (g_low, g_high) = self.split(g, level);
        let low = self.combine(operator, f_low, g_low);
        let high = self.combine(operator, f_high, g_high);
        let result = self.node(level, low, high);
        self.remember(key, result)
    }

    /// `f` with the variable of `level` fixed to 0 and to 1, where no higher one occurs in `f`.
    fn split(&self, f: Function, level: u8) -> (Function, Function) {
        if self.nodes[f.index()].level == level {
            self.branches(f)
        } else {
            (f, f)
        }
    }

    pub fn not(&mut self, f: Function) -> Function {
        match f {
            FALSE => return TRUE,
            TRUE => return FALSE,
            _ => {}
        }
        let key = Key { task: NOT, first: f.0, second: 0 };
        if let Some(result) = self.remembered(key) {
            return result;
        }
        let Node { level, low, high } = self.nodes[f.index()];
        let (low, high) = (self.not(low), self.not(high));
        let result = self.node(level, low, high);
        self.remember(key, result)
    }

    /// `f` with the variable of `level` fixed to `value`.
    pub fn fix(&mut self, f: Function, level: u8, value: bool) -> Function {
        let node = self.nodes[f.index()];
        if node.level > level {
            return f;
        }
        if node.level == level {
            return if value { node.high } else { node.low };
        }
        let key = Key { task: FIX + 2 * u32::from(level) + u32::from(value), first: f.0, second: 0 };
        if let Some(result) = self.remembered(key) {
            return result;
        }
        let low = self.fix(node.low, level, value);
        let high = self.fix(node.high, level, value);
        let result = self.node(node.level, low, high);
        self.remember(key, result)
    }

    /// The function that holds where the number read from `levels` (ascending), lowest bit first, is this one.
    pub fn number(&mut self, levels: &[u8], number: u32) -> Function {
        levels.iter().enumerate().rev().fold(TRUE, |rest, (bit, &level)| match number >> bit & 1 {
            0 => self.node(level, rest, FALSE),
            _ => self.node(level, FALSE, rest),
        })
    }

    /// The function that holds where `holds` does of the number read from `levels` (ascending),
    /// lowest bit first.
    pub fn tabulate(&mut self, levels: &[u8], holds: &dyn Fn(u32) -> bool) -> Function {
        let Some((&level, rest)) = levels.split_first() else {
            return if holds(0) { TRUE } else { FALSE };
        };
        let low = self.tabulate(rest, &|n| holds(2 * n));
        let high = self.tabulate(rest, &|n| holds(2 * n + 1));
        self.node(level, low, high)
    }

    /// Equality bit by bit; in each pair, and from pair to pair, levels ascend.
    pub fn equality(&mut self, pairs: &[(u8, u8)]) -> Function {
        pairs.iter().rev().fold(TRUE, |rest, &(upper, lower)| {
            let both_0 = self.node(lower, rest, FALSE);
            let both_1 = self.node(lower, FALSE, rest);
            self.node(upper, both_0, both_1)
        })
    }
}

fn hash(a: u32, b: u32, c: u32) -> usize {
    let mixed = u64::from(a).wrapping_mul(0x9E37_79B9_7F4A_7C15)
        ^ u64::from(b).wrapping_mul(0xC2B2_AE3D_27D4_EB4F)
        ^ u64::from(c).wrapping_mul(0x1656_67B1_9E37_79F9);
    (mixed ^ mixed >> 29).wrapping_mul(0xBF58_476D_1CE4_E5B9) as usize >> 24
}
