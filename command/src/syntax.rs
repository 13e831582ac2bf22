//! Parsing the readable form, one line at a time.

use crate::aut::Aut;
use crate::frames::{EXIT_CHANNEL, MOST_CHANNEL, MOST_STATES};
use crate::outcome::{misplaced, Misplaced};
use crate::source::{Act, Body, Declared, Definition, Named, Places, Source, Step};
use crate::tokens::{tokens, Placed, Token};
use crate::words::{exit_with_values, EXIT_DIRECTED, EXIT_VALUED, EXIT_WORD};

type Parsed<T> = Result<T, Misplaced>;

/// Opens an .aut file that a leaf is taken from.
pub type Open<'a> = &'a dyn Fn(&str) -> Result<Aut, String>;

const LINES: &str = "a line is 'channels ..', 'gates ..', 'leaf NAME', 'states ..', a step 'STATE -- out CHANNEL --> STATE', \
                     or 'NAME = OPERATOR ..'";

/// What is said of exit in a declaration, in a list or a relabelling, and where it stands in quotes in the place of a gate.
const EXIT_DECLARED: &str =
    "exit is the termination event, which is never declared; leave it out, or choose another name.";
const EXIT_LISTED: &str =
    "exit is the termination event and no channel: joint takes it on both sides together, and no list or relabelling names it; leave it out.";
const EXIT_QUOTED: &str = "exit is the termination event and no gate; write it without quotes.";

/// Operators of LOTOS, and `|` of CCS, and how they are written here. One that starts as another does comes before it.
const WRITTEN: [(&str, &str); 6] = [
    (">>", "enable FIRST then SECOND"),
    ("[>", "disable FIRST by SECOND"),
    ("|||", "joint FIRST SECOND"),
    ("|[", "joint FIRST SECOND on CHANNELS"),
    ("||", "joint FIRST SECOND on CHANNELS"),
    ("|", "compose FIRST SECOND"),
];

pub const OPERATORS: [&str; 7] = ["compose", "restrict", "relabel", "hide", "joint", "enable", "disable"];

/// What is said where an operator stands in the place of an operand.
pub const NESTED: &str = "operators are not nested: an operand is the name of a process; define the inner process in a line of its own \
                      above, and name it here.";

pub fn parse(text: &str, open: Open) -> Parsed<Source> {
    let mut source = Source::default();
    for (index, line) in text.lines().enumerate() {
        let words = tokens(index + 1, line).map_err(|wrong| of_expression(wrong, line))?;
        if !words.is_empty() {
            parse_line(&mut source, &mut Line { number: index + 1, words, next: 0 }, open)?;
        }
    }
    if source.definitions.is_empty() {
        let last = text.lines().count().max(1);
        return misplaced(last, 1, "the file defines no process; add a 'leaf NAME' with its steps.");
    }
    Ok(source)
}

/// What is said where an operator's sign or a bracket stands in a definition.
fn of_expression(wrong: Misplaced, line: &str) -> Misplaced {
    let split = line.char_indices().nth(wrong.column - 1).map_or(line.len(), |(at, _)| at);
    let (before, rest) = line.split_at(split);
    if !tokens(wrong.line, before).is_ok_and(|words| defining(&words)) {
        return wrong;
    }
    if rest.starts_with('(') {
        return Misplaced { sentence: NESTED.to_string(), ..wrong };
    }
    match WRITTEN.iter().find(|(sign, _)| rest.starts_with(sign)) {
        Some((sign, words)) => {
            let sentence = format!("'{sign}' has no meaning here; write 'NAME = {words}' for it.");
            Misplaced { sentence, ..wrong }
        }
        None => wrong,
    }
}

/// Whether a line that starts so defines a process, or may be meant to: `p >> q` without a name of its own.
fn defining(words: &[Placed]) -> bool {
    match words {
        [word] => !["channels", "gates", "leaf", "states"].iter().any(|first| word.is(first)),
        [_, second, ..] => second.is("="),
        [] => false,
    }
}

fn parse_line(source: &mut Source, line: &mut Line, open: Open) -> Parsed<()> {
    let second = |mark: &str| line.words.get(1).is_some_and(|w| w.is(mark));
    if second("=") {
        let definition = definition(line).map_err(|wrong| nested(wrong, line, source))?;
        source.definitions.push(definition);
    } else if second("--") || second("-->") {
        step(source, line)?;
    } else if line.skip("channels") {
        declarations(source, line, false)?;
    } else if line.skip("gates") {
        declarations(source, line, true)?;
    } else if line.skip("leaf") {
        leaf(source, line, open)?;
    } else if line.skip("states") {
        states(source, line)?;
    } else {
        return line.wrong(&format!("{LINES}; write one of these."));
    }
    line.end()
}

fn declarations(source: &mut Source, line: &mut Line, gate: bool) -> Parsed<()> {
    loop {
        let channel = line.channel("the name of a channel", EXIT_DECLARED)?;
        let number = if line.skip("=") { Some(channel_number(line)?) } else { None };
        source.channels.push(Declared { channel, gate, number });
        line.skip(",");
        if line.at_end() {
            return Ok(());
        }
    }
}

fn channel_number(line: &mut Line) -> Parsed<u8> {
    match line.peek().and_then(Placed::name).and_then(|w| w.parse::<u8>().ok()) {
        Some(number @ 1..=MOST_CHANNEL) => {
            line.next += 1;
            Ok(number)
        }
        Some(EXIT_CHANNEL) => line.wrong(&format!(
            "{EXIT_CHANNEL} is the termination event, exit, and no channel's number; write one from 1 to {MOST_CHANNEL}, or leave out the '='."
        )),
        _ => line.wrong(&format!(
            "a channel's number from 1 to {MOST_CHANNEL} is due here; write one, or leave out the '='."
        )),
    }
}

fn leaf(source: &mut Source, line: &mut Line, open: Open) -> Parsed<()> {
    let name = line.name("the leaf's name")?;
    if !line.skip("from") {
        source
            .definitions
            .push(Definition { name, body: Body::Leaf { states: Vec::new(), steps: Vec::new() } });
        return Ok(());
    }
    let file = line.name("the name of an .aut file in quotes")?;
    let aut = open(&file.name).map_err(|sentence| Misplaced::new(file.line, file.column, sentence))?;
    source
        .add_aut(name, &aut, Places::Leaf)
        .map_err(|sentence| Misplaced::new(file.line, file.column, sentence))
}

/// States and steps of the leaf above.
fn open_leaf<'a>(source: &'a mut Source, line: &Line) -> Parsed<(&'a mut Vec<Named>, &'a mut Vec<Step>)> {
    match source.definitions.last_mut() {
        Some(Definition { body: Body::Leaf { states, steps }, .. }) => Ok((states, steps)),
        _ => misplaced(
            line.number,
            line.column(0),
            "states and steps belong below a 'leaf NAME' line; write one above.",
        ),
    }
}

fn states(source: &mut Source, line: &mut Line) -> Parsed<()> {
    let (states, _) = open_leaf(source, line)?;
    loop {
        let state = line.name("the name of a state")?;
        if states.len() >= MOST_STATES {
            let sentence = format!("a leaf has at most {MOST_STATES} states; reduce it, or split it into leaves that are composed.");
            return misplaced(state.line, state.column, sentence);
        }
        if states.iter().any(|s| s.name == state.name) {
            return misplaced(
                state.line,
                state.column,
                format!("the state '{}' stands here twice; name it once.", state.name),
            );
        }
        states.push(state);
        line.skip(",");
        if line.at_end() {
            return Ok(());
        }
    }
}

fn step(source: &mut Source, line: &mut Line) -> Parsed<()> {
    let (_, steps) = open_leaf(source, line)?;
    let from = line.name("the state that the step leaves")?;
    line.mark("--")?;
    let act = act(line)?;
    line.mark("-->")?;
    let to = line.name("the state that the step leads to")?;
    steps.push(Step { from, act, to });
    Ok(())
}

/// `tau`, `exit`, `out CHANNEL`, `in CHANNEL`, or a gate alone.
fn act(line: &mut Line) -> Parsed<Act> {
    let alone = line.words.get(line.next + 1).is_some_and(|w| matches!(w.token, Token::Mark(_)));
    if alone && line.skip("tau") {
        return Ok(Act::Tau);
    }
    if alone && line.skip(EXIT_WORD) {
        return Ok(Act::Exit);
    }
    if alone {
        let what = "an action: tau, exit, out CHANNEL, in CHANNEL or a gate's name";
        return Ok(Act::Gate(line.channel(what, EXIT_QUOTED)?));
    }
    if line.skip("out") {
        return Ok(Act::Output(line.channel("the channel of the output", EXIT_DIRECTED)?));
    }
    if line.skip("in") {
        return Ok(Act::Input(line.channel("the channel of the input", EXIT_DIRECTED)?));
    }
    line.wrong("an action is tau, exit, out CHANNEL, in CHANNEL or a gate's name alone; write one of these.")
}

fn definition(line: &mut Line) -> Parsed<Definition> {
    let name = line.name("the name of the process")?;
    line.mark("=")?;
    let body = if line.skip("compose") {
        compose(line)?
    } else if line.skip("restrict") {
        Body::Restrict(line.process()?, line.channels()?)
    } else if line.skip("hide") {
        Body::Hide(line.process()?, line.channels()?)
    } else if line.skip("joint") {
        Body::Joint(line.process()?, line.process()?, line.channels()?)
    } else if line.skip("relabel") {
        Body::Relabel(line.process()?, relabelling(line)?)
    } else if line.skip("enable") {
        Body::Enable(sequence(line, "then", "enable FIRST then SECOND")?)
    } else if line.skip("disable") {
        Body::Disable(sequence(line, "by", "disable FIRST by SECOND")?)
    } else {
        return line.wrong(
            "the operators are compose, restrict, relabel, hide, joint, enable and disable; write one of these after '='.",
        );
    };
    Ok(Definition { name, body })
}

/// What is said of a definition with something wrong behind an operator that stands in the place of a name.
fn nested(wrong: Misplaced, line: &Line, source: &Source) -> Misplaced {
    let known = |word: &str| {
        source.definitions.iter().any(|d| d.name.name == word)
            || source.channels.iter().any(|c| c.channel.name == word)
    };
    let mut behind = line.words.iter().skip(3).take_while(|w| w.column < wrong.column);
    match behind.find(|w| OPERATORS.iter().any(|o| w.is(o) && !known(o))) {
        Some(word) => Misplaced::new(wrong.line, word.column, NESTED),
        None => wrong,
    }
}

/// Two processes or more with a word between them.
fn sequence(line: &mut Line, word: &str, form: &str) -> Parsed<Vec<Named>> {
    let process = format!("the name of a process, as in '{form}',");
    let mut operands = vec![line.name(&process)?];
    while operands.len() < 2 || !line.at_end() {
        if !line.skip(word) {
            return line.wrong(&between(line, operands.len(), word, form));
        }
        operands.push(line.name(&process)?);
    }
    Ok(operands)
}

/// What is said where the word between two processes is missing, behind so many of them.
fn between(line: &Line, operands: usize, word: &str, form: &str) -> String {
    if operands < 2 {
        return format!("'{word}' is due here, as in '{form}'; write it.");
    }
    let complete = match line.peek().is_some_and(|w| w.is("on")) {
        true => "enable and disable have no list of channels",
        false => "the line is complete before this word",
    };
    format!("{complete}; remove the rest, or write '{word}' and one more process.")
}

fn compose(line: &mut Line) -> Parsed<Body> {
    let mut operands = vec![line.process()?, line.process()?];
    while !line.at_end() {
        operands.push(line.process()?);
    }
    Ok(Body::Compose(operands))
}

fn relabelling(line: &mut Line) -> Parsed<Vec<(Named, Named)>> {
    let mut changes = Vec::new();
    loop {
        let old = line.channel("a channel, as in 'relabel P OLD to NEW'", EXIT_LISTED)?;
        line.mark("to")?;
        changes.push((old, line.channel("the channel's new name", EXIT_LISTED)?));
        line.skip(",");
        if line.at_end() {
            return Ok(changes);
        }
    }
}

/// A line's tokens and the place of the next one.
struct Line {
    number: usize,
    words: Vec<Placed>,
    next: usize,
}

impl Line {
    fn peek(&self) -> Option<&Placed> {
        self.words.get(self.next)
    }

    fn at_end(&self) -> bool {
        self.next >= self.words.len()
    }

    /// The column of a token, or the one behind the last.
    fn column(&self, index: usize) -> usize {
        match (self.words.get(index), self.words.last()) {
            (Some(word), _) => word.column,
            (None, Some(last)) => last.column + width(&last.token),
            (None, None) => 1,
        }
    }

    fn wrong<T>(&self, sentence: &str) -> Parsed<T> {
        misplaced(self.number, self.column(self.next), sentence)
    }

    /// Steps over a keyword or mark if it stands here.
    fn skip(&mut self, word: &str) -> bool {
        let here = self.peek().is_some_and(|w| w.is(word));
        self.next += usize::from(here);
        here
    }

    fn mark(&mut self, word: &str) -> Parsed<()> {
        if self.skip(word) {
            return Ok(());
        }
        self.wrong(&format!("'{word}' is due here; write it."))
    }

    fn name(&mut self, what: &str) -> Parsed<Named> {
        let Some(name) = self.peek().and_then(Placed::name).map(str::to_string) else {
            return self.wrong(&format!("{what} is due here; write it."));
        };
        let named = Named { name, line: self.number, column: self.column(self.next) };
        self.next += 1;
        Ok(named)
    }

    /// The name of a channel or gate; exit is none, and gets a sentence.
    fn channel(&mut self, what: &str, exit: &str) -> Parsed<Named> {
        match self.peek().and_then(Placed::name) {
            Some(EXIT_WORD) => self.wrong(exit),
            Some(name) if exit_with_values(name) => self.wrong(EXIT_VALUED),
            _ => self.name(what),
        }
    }

    fn process(&mut self) -> Parsed<Named> {
        let named = self.name("the name of a process");
        self.skip(",");
        named
    }

    /// `on` and channels; nothing for an empty list.
    fn channels(&mut self) -> Parsed<Vec<Named>> {
        let mut channels = Vec::new();
        if self.at_end() {
            return Ok(channels);
        }
        self.mark("on")?;
        loop {
            let what = "a channel after 'on' (leave out 'on' for an empty list)";
            channels.push(self.channel(what, EXIT_LISTED)?);
            self.skip(",");
            if self.at_end() {
                return Ok(channels);
            }
        }
    }

    fn end(&self) -> Parsed<()> {
        if self.at_end() {
            return Ok(());
        }
        self.wrong("the line is complete before this word; remove the rest, or start a new line with it.")
    }
}

fn width(token: &Token) -> usize {
    match token {
        Token::Word(word) => word.chars().count(),
        Token::Quoted(word) => word.chars().count() + 2,
        Token::Mark(mark) => mark.len(),
    }
}
