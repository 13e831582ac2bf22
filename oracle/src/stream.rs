//! Cases with their expected answers, for a program that runs them through the library: records of 64-bit numbers,
//! lowest byte first, and bytes that follow their number. Each record starts with its tag.

use std::io::{self, Write};

use crate::answer::{compare_models, largest, told, Answer, MAX_TABLE, WORDS};
use crate::bisim::{Mode, Outcome};
use crate::calls::{self, any_pair, calls, work, Call, Compared, Orders, Pair};
use crate::codes::holds;
use crate::generate::has_sequence;
use crate::lookup::{look_up, Ask};
use crate::model::Model;
use crate::program::{printed, Files};
use crate::random::Random;
use crate::reader::read;
use crate::requests;
use crate::steps::{derive, Step};
use crate::tables::{any_ask, any_table, Table};
use crate::texts::any_text;
use crate::vectors::{self, escape_lines, is_vector, Case};

const TEXT: u64 = 1;
const PAIR: u64 = 2;
const CALL: u64 = 3;
const SHOWN: u64 = 4;
const TABLE: u64 = 5;
const ASK: u64 = 6;
const END: u64 = 7;

/// What a call returns: answered, refused, or too few words for the answer.
const ANSWERED: u64 = 0;
const REFUSED: u64 = 2;
const SHORT: u64 = 3;

/// The text beside which a text is judged as the right one.
const BESIDE: &[u8] = b"000101\n";

/// The cases from `first` on, so many of them.
#[derive(Clone, Copy, Debug)]
pub struct Cases {
    pub seed: u64,
    pub first: u64,
    pub count: u64,
}

impl Cases {
    /// Each case with its number and its own source of numbers.
    fn each(self) -> impl Iterator<Item = (u64, Random)> {
        (self.first..self.first + self.count).map(move |case| (case, Random::of_case(self.seed, case)))
    }
}

pub struct Stream<W: Write>(pub W);

impl<W: Write> Stream<W> {
    /// Texts, each to be judged alone, as the left and as the right one.
    pub fn texts(&mut self, cases: Cases) -> io::Result<()> {
        for (case, mut random) in cases.each() {
            let text = any_text(&mut random);
            self.text(case, &text, short(&mut random))?;
        }
        self.end()
    }

    /// Comparisons of pairs, some calls each.
    pub fn comparisons(&mut self, cases: Cases) -> io::Result<()> {
        for (case, mut random) in cases.each() {
            let pair = any_pair(&mut random);
            let calls = calls(&mut random, &pair);
            self.compared(case, &mut random, &pair, &calls)?;
        }
        self.end()
    }

    /// Reordered models: what is told of each, comparisons of both, which have to be equal, and comparisons of each with a third
    /// model, which have to say the same.
    pub fn reordered(&mut self, cases: Cases) -> io::Result<()> {
        for (case, mut random) in cases.each() {
            let Orders { both, beside_third } = calls::reordered(&mut random);
            let broken = |why| io::Error::other(format!("case {case} of seed {}: {why}", cases.seed));
            kept_by_moves(&both.pair).and_then(|()| told_alike(&beside_third)).map_err(broken)?;
            for text in [&both.pair.left, &both.pair.right] {
                self.text(case, text, short(&mut random))?;
            }
            for Compared { pair, calls } in [&both].into_iter().chain(&beside_third) {
                self.compared(case, &mut random, pair, calls)?;
            }
        }
        self.end()
    }

    /// Comparisons of small pairs, after which every step is looked up, and every pair of codes in each mode that is equal.
    pub fn shown(&mut self, cases: Cases) -> io::Result<()> {
        self.each_shown(cases, calls::shown)
    }

    /// The same of pairs each of which has an enabling or disabling.
    pub fn sequences(&mut self, cases: Cases) -> io::Result<()> {
        self.each_shown(cases, calls::sequenced)
    }

    fn each_shown(&mut self, cases: Cases, shown: fn(&mut Random) -> (Pair, Call)) -> io::Result<()> {
        for (case, mut random) in cases.each() {
            let (pair, call) = shown(&mut random);
            self.shown_pair(case, &mut random, &pair, &call)?;
        }
        self.end()
    }

    /// Tables, whole and broken, with look-ups.
    pub fn tables(&mut self, cases: Cases) -> io::Result<()> {
        for (case, mut random) in cases.each() {
            let table = any_table(&mut random);
            let slices = table.slices();
            self.table(case, &table)?;
            for _ in 0..16 {
                let ask = any_ask(&mut random, &table);
                self.ask(&ask, look_up(&slices, &ask))?;
            }
        }
        self.end()
    }

    /// The lines of a file of vectors with the answers that stand there, counted from 1.
    pub fn vectors(&mut self, file: &str, seed: u64) -> io::Result<()> {
        for (number, line) in stored(file) {
            let vector = vectors::parse(line).ok_or_else(|| malformed(number))?;
            self.case(number, seed, &vector.case, &vector.expected)?;
        }
        self.end()
    }

    /// The lines of a file of requests in the same way.
    pub fn requests(&mut self, file: &str, seed: u64) -> io::Result<()> {
        for (number, line) in stored(file) {
            let request = requests::parse(line).ok_or_else(|| malformed(number))?;
            match &request.call {
                requests::Call::Compare(case) => self.case(number, seed, case, &request.expected)?,
                requests::Call::Steps(text) => self.steps(number, seed, text, &request.expected)?,
                requests::Call::Program(files) => self.program(number, seed, files, &request.expected)?,
                requests::Call::LookUp(table, ask) => {
                    let value = requests::looked_up(&request.expected).ok_or_else(|| malformed(number))?;
                    self.table(number, table)?;
                    self.ask(ask, value)?;
                }
            }
        }
        self.end()
    }

    /// The comparison that a run of the program makes, unless a file can't be read.
    fn program(&mut self, number: u64, seed: u64, files: &Files, expected: &str) -> io::Result<()> {
        let Some(case) = files.case() else { return Ok(()) };
        let answer = case.run().answer;
        if escape_lines(&printed(answer)) != expected {
            return Err(io::Error::other(format!(
                "line {number} is not what the program prints of {answer}"
            )));
        }
        self.case(number, seed, &case, &answer.to_string())
    }

    /// The comparison of a text with itself, after which every step is looked up.
    fn steps(&mut self, number: u64, seed: u64, text: &[u8], expected: &str) -> io::Result<()> {
        let model = read(text).map_err(|_| malformed(number))?;
        if requests::steps(&model).as_deref() != Some(expected) {
            return Err(io::Error::other(format!("line {number} does not give the model's steps")));
        }
        let mut random = Random::of_case(seed, number);
        let pair = Pair::new(text.to_vec(), text.to_vec());
        let call = calls::fitting(&mut random, &pair);
        match self.shown_pair(number, &mut random, &pair, &call)? {
            true => Ok(()),
            false => Err(io::Error::other(format!("line {number} has too large a model for look-ups"))),
        }
    }

    /// A pair, and calls that compare it.
    fn compared(&mut self, case: u64, random: &mut Random, pair: &Pair, calls: &[Call]) -> io::Result<()> {
        self.pair(case, &pair.left, &pair.right)?;
        calls.iter().try_for_each(|call| self.call(random, call, call.expected(&pair.known)))
    }

    /// A comparison and the look-ups after it; whether there are any.
    fn shown_pair(&mut self, case: u64, random: &mut Random, pair: &Pair, call: &Call) -> io::Result<bool> {
        self.pair(case, &pair.left, &pair.right)?;
        let answer = call.expected(&pair.known);
        self.call(random, call, answer)?;
        match answer.and_then(|answer| Shown::new(pair, answer)) {
            Some(shown) => self.show(random, &shown).map(|()| true),
            None => Ok(false),
        }
    }

    /// A stored comparison.
    fn case(&mut self, number: u64, seed: u64, case: &Case, expected: &str) -> io::Result<()> {
        let answer: Answer = expected.parse().map_err(|()| malformed(number))?;
        let mut random = Random::of_case(seed, number);
        // A length far out of range is as good as one just out of it, and can be lent.
        let length = case.length.min(MAX_TABLE + 1);
        let work = work(&mut random, entries(answer, length));
        self.pair(number, &case.left, &case.right)?;
        let call = Call { limit: case.limit, table: [length; 3], work, words: WORDS + 1 };
        self.call(&mut random, &call, Some(answer))
    }

    // Records.

    fn number(&mut self, number: u64) -> io::Result<()> {
        self.0.write_all(&number.to_le_bytes())
    }

    fn numbers(&mut self, numbers: &[u64]) -> io::Result<()> {
        numbers.iter().try_for_each(|&number| self.number(number))
    }

    fn bytes(&mut self, bytes: &[u8]) -> io::Result<()> {
        self.number(bytes.len() as u64)?;
        self.0.write_all(bytes)
    }

    fn end(&mut self) -> io::Result<()> {
        self.number(END)?;
        self.0.flush()
    }

    /// What is told of the text; and, if it is accepted, what a comparison with limit 0 beside another text says, on a
    /// table of this length.
    fn text(&mut self, case: u64, text: &[u8], length: usize) -> io::Result<()> {
        let read = read(text);
        let beside = read.as_ref().ok().map(|model| beside(model, length));
        self.numbers(&[TEXT, case])?;
        self.bytes(text)?;
        self.numbers(&told(&read))?;
        self.number(length as u64)?;
        self.numbers(&expected(beside))
    }

    /// The texts, and whether both are accepted and a used line of one is an enabling or disabling.
    fn pair(&mut self, case: u64, left: &[u8], right: &[u8]) -> io::Result<()> {
        self.numbers(&[PAIR, case])?;
        self.bytes(left)?;
        self.bytes(right)?;
        let accepted = read(left).is_ok() && read(right).is_ok();
        self.number((accepted && (has_sequence(left) || has_sequence(right))).into())
    }

    fn call(&mut self, random: &mut Random, call: &Call, answer: Option<Answer>) -> io::Result<()> {
        self.numbers(&[CALL, call.limit])?;
        for &length in call.table.iter().chain(&[call.work, call.words]) {
            self.number(length as u64)?;
        }
        self.number(random.draw())?;
        self.numbers(&expected(answer))
    }

    fn show(&mut self, random: &mut Random, shown: &Shown) -> io::Result<()> {
        self.numbers(&[SHOWN, random.draw()])?;
        for relation in [&shown.left, &shown.right] {
            self.numbers(&[relation.bits.into(), relation.codes.len() as u64])?;
            relation.codes.iter().try_for_each(|&code| self.number(code.into()))?;
            self.bytes(&relation.values)?;
        }
        self.bytes(&shown.strong)?;
        self.bytes(&shown.weak)
    }

    fn table(&mut self, case: u64, table: &Table) -> io::Result<()> {
        self.numbers(&[TABLE, case])?;
        self.numbers(&table.lengths.map(|length| length as u64))?;
        self.numbers(&[table.fill.level.into(), table.fill.low.into(), table.fill.high.into()])?;
        self.number(table.entries.len() as u64)?;
        for (index, entry) in &table.entries {
            self.numbers(&[*index as u64, entry.level.into(), entry.low.into(), entry.high.into()])?;
        }
        Ok(())
    }

    fn ask(&mut self, ask: &Ask, expected: u64) -> io::Result<()> {
        self.numbers(&[ASK, ask.root, ask.action])?;
        self.numbers(&ask.codes)?;
        self.number(expected)
    }
}

/// The length of a table on which a text is judged beside another.
fn short(random: &mut Random) -> usize {
    2 + random.below(40)
}

/// What moves by laws have to keep: bits, leaf uses and states, and that both modes find the models equal.
fn kept_by_moves(pair: &Pair) -> Result<(), &'static str> {
    let size = |text| {
        let model = read(text).map_err(|_| "a text is refused")?;
        Ok((model.last().bits, model.last().uses, model.last().states))
    };
    if size(&pair.left)? != size(&pair.right)? {
        return Err("bits, leaf uses or states differ");
    }
    match pair.verdicts() {
        Some([Outcome::Equal(_), Outcome::Equal(_)]) => Ok(()),
        Some(_) => Err("not equal in both modes"),
        None => Err("no verdicts"),
    }
}

/// Whether both modes say the same of all these pairs, with the same rounds.
fn told_alike(compared: &[Compared]) -> Result<(), &'static str> {
    let verdicts: Vec<_> = compared.iter().map(|compared| compared.pair.verdicts()).collect();
    match verdicts.windows(2).all(|two| two[0] == two[1]) {
        true => Ok(()),
        false => Err("verdicts or rounds of the orders differ beside a third model"),
    }
}

/// The lines of a file that are no comments, counted from 1.
fn stored(file: &str) -> impl Iterator<Item = (u64, &str)> {
    (1..).zip(file.lines()).filter(|(_, line)| is_vector(line))
}

fn malformed(number: u64) -> io::Error {
    io::Error::other(format!("line {number} is malformed"))
}

/// What a call returns, and seven words: each mode's verdict with its rounds, strong before weak, or a refusal's number, side and
/// line; then the nodes as the answer's words have them, of the whole list first, 0 where there are none.
fn expected(answer: Option<Answer>) -> [u64; 8] {
    let (returned, first, nodes) = match answer {
        Some(Answer::Given { strong, weak, nodes }) => {
            (ANSWERED, [verdict(strong), strong.rounds(), verdict(weak), weak.rounds()], Some(nodes))
        }
        Some(Answer::Full { nodes }) => (REFUSED, [8, 2, 0, 0], Some(nodes)),
        Some(Answer::Refused { number, side, line }) => {
            (REFUSED, [number.into(), side.into(), line as u64, 0], None)
        }
        None => (SHORT, [0; 4], None),
    };
    let nodes = nodes.map_or([0; 3], |nodes| [nodes.whole, nodes.relations, nodes.answers]);
    let mut words = [returned; 8];
    words[1..5].copy_from_slice(&first);
    words[5..].copy_from_slice(&nodes.map(|number| number as u64));
    words
}

fn verdict(outcome: Outcome) -> u64 {
    match outcome {
        Outcome::Equal(_) => 0,
        Outcome::Different(_) => 1,
        Outcome::Undecided => 9,
    }
}

/// At most so many entries of a table of this length are used, and at least one is.
fn entries(answer: Answer, length: usize) -> usize {
    match answer {
        Answer::Given { nodes, .. } => nodes.whole + 2,
        Answer::Full { .. } => length,
        Answer::Refused { .. } => length.clamp(1, 100),
    }
}

/// Refusal 8, or two verdicts that do not fall by limit 0: whether the list up to B₀ fits into a table of this length.
fn beside(model: &Model, length: usize) -> Answer {
    let left = read(BESIDE).expect("accepted");
    compare_models(&left, model, 0, length - 2).answer
}

/// What the table of an answer shows: a byte a look-up.
struct Shown {
    left: Relation,
    right: Relation,
    /// Values by the left's and the right's codes for each mode; none unless its verdict is "equal".
    strong: Vec<u8>,
    weak: Vec<u8>,
}

impl Shown {
    /// None if the answer shows nothing or a model is too large.
    fn new(pair: &Pair, answer: Answer) -> Option<Shown> {
        let Answer::Given { strong, weak, .. } = answer else { return None };
        let (left, right) = (read(&pair.left).ok()?, read(&pair.right).ok()?);
        let codes = (codes(&left)?, codes(&right)?);
        let pairs = |outcome, mode| match outcome {
            Outcome::Equal(_) => related(&left, &right, mode, &codes),
            _ => Some(vec![]),
        };
        let (strong, weak) = (pairs(strong, Mode::Strong)?, pairs(weak, Mode::Weak)?);
        let (left, right) = (Relation::new(&left, codes.0)?, Relation::new(&right, codes.1)?);
        Some(Shown { left, right, strong, weak })
    }
}

/// All codes of a model with few bits, only the states of a larger one; none if these are many.
fn codes(model: &Model) -> Option<Vec<u32>> {
    let bits = model.last().bits;
    match bits {
        0..=5 => Some((0..1 << bits).collect()),
        _ => derive(model).map(|system| system.states).filter(|states| states.len() <= 100),
    }
}

/// What look-ups from a model's root give.
struct Relation {
    bits: u32,
    codes: Vec<u32>,
    /// By now code, action and next code.
    values: Vec<u8>,
}

impl Relation {
    /// From a state the derived steps; the list's formula at other codes.
    fn new(model: &Model, codes: Vec<u32>) -> Option<Relation> {
        let system = derive(model)?;
        let mut values = Vec::new();
        for &from in &codes {
            let is_state = system.states.binary_search(&from).is_ok();
            for action in 0..64 {
                values.extend(codes.iter().map(|&to| {
                    u8::from(if is_state {
                        system.steps.binary_search(&Step { from, action, to }).is_ok()
                    } else {
                        holds(model, from, action, to)
                    })
                }));
            }
        }
        Some(Relation { bits: model.last().bits, codes, values })
    }
}

/// Whether the largest bisimulation holds each pair of these codes.
fn related(left: &Model, right: &Model, mode: Mode, codes: &(Vec<u32>, Vec<u32>)) -> Option<Vec<u8>> {
    let largest = largest(left, right, mode)?;
    let held = |x: u32, y: u32| u8::from(largest.binary_search(&(x, y)).is_ok());
    let pairs = codes.0.iter().flat_map(|&x| codes.1.iter().map(move |&y| (x, y)));
    Some(pairs.map(|(x, y)| held(x, y)).collect())
}
