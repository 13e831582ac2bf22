//! Files of calls as they answer once document 02's requests up to the line's first field are in: request, name, call,
//! arguments as `name=value`, and answer, parted by tabs.

use std::collections::BTreeMap;
use std::str::FromStr;

use crate::lookup::{look_up, Ask};
use crate::model::Model;
use crate::program::Files;
use crate::reader::read;
use crate::steps::{derive, Step};
use crate::tables::{Entry, Table};
use crate::vectors::{escape_lines, unescape, Case, Rerun};

#[derive(Clone, Debug)]
pub enum Call {
    Compare(Case),
    LookUp(Table, Ask),
    /// The codes and the derived steps of an accepted text.
    Steps(Vec<u8>),
    /// A run of the program; its lines stand in the answer, `/` for their ends.
    Program(Files),
}

/// One line of a file of requests.
#[derive(Clone, Debug)]
pub struct Request {
    pub name: String,
    pub call: Call,
    pub expected: String,
}

/// The call of a line; none if the line is malformed.
pub fn parse(line: &str) -> Option<Request> {
    let fields: Vec<&str> = line.split('\t').collect();
    let [request, name, call, arguments @ .., expected] = fields.as_slice() else { return None };
    request.parse::<u8>().ok()?;
    let arguments = Arguments(arguments.iter().map(|word| word.split_once('=')).collect::<Option<_>>()?);
    let call = match *call {
        "compare" => Call::Compare(arguments.case()?),
        "lookup" => Call::LookUp(arguments.table()?, arguments.ask()?),
        "steps" => Call::Steps(unescape(arguments.0.get("text")?)?),
        "program" => Call::Program(Files { left: arguments.file("left")?, right: arguments.file("right")? }),
        _ => return None,
    };
    Some(Request { name: name.to_string(), call, expected: expected.to_string() })
}

/// A line's answer worked out anew; none if the line is malformed.
pub fn rerun(line: &str) -> Option<Rerun> {
    let Request { name, call, expected } = parse(line)?;
    Some(match call {
        Call::Compare(case) => case.rerun(name, expected),
        Call::LookUp(table, ask) => {
            Rerun { name, expected, got: words(look_up(&table.slices(), &ask)), explicit: false }
        }
        Call::Steps(text) => Rerun { name, expected, got: steps(&read(&text).ok()?)?, explicit: false },
        Call::Program(files) => {
            let (printed, explicit) = files.run();
            Rerun { name, expected, got: escape_lines(&printed), explicit }
        }
    })
}

/// A model's codes, and its steps as those that it may and those that it must have: the same ones, since every leaf is a
/// plain one. None if the model is too large.
pub fn steps(model: &Model) -> Option<String> {
    let system = derive(model)?;
    let codes: Vec<String> = system.states.iter().map(u32::to_string).collect();
    let step = |Step { from, action, to }: &Step| format!(" {from}.{action}.{to}");
    let steps: String = system.steps.iter().map(step).collect();
    Some(format!("codes {} | may{steps} | must{steps}", codes.join(",")))
}

fn words(looked_up: u64) -> String {
    let kind = if looked_up < 2 { "value" } else { "refused" };
    format!("{kind} {looked_up}")
}

/// What a look-up gives, from its words.
pub fn looked_up(answer: &str) -> Option<u64> {
    [0, 1, 7, 10].into_iter().find(|&number| words(number) == answer)
}

/// The arguments by their names.
struct Arguments<'a>(BTreeMap<&'a str, &'a str>);

impl Arguments<'_> {
    fn case(&self) -> Option<Case> {
        Some(Case {
            left: unescape(self.0.get("left")?)?,
            right: unescape(self.0.get("right")?)?,
            limit: self.number("limit")?,
            length: self.number("L")?,
        })
    }

    /// A file's bytes; `-` is a missing file. None if the argument is missing or malformed.
    fn file(&self, name: &str) -> Option<Option<Vec<u8>>> {
        match *self.0.get(name)? {
            "-" => Some(None),
            text => Some(Some(unescape(text)?)),
        }
    }

    fn ask(&self) -> Option<Ask> {
        let codes = [self.number("ln")?, self.number("lx")?, self.number("rn")?, self.number("rx")?];
        Some(Ask { root: self.number("root")?, action: self.number("action")?, codes })
    }

    fn table(&self) -> Option<Table> {
        let (level, low, high) = (self.list("level")?, self.list("low")?, self.list("high")?);
        let lengths = [level.len(), low.len(), high.len()];
        let entry = |index: usize| Entry {
            level: level.get(index).copied().unwrap_or(0),
            low: low.get(index).copied().unwrap_or(0),
            high: high.get(index).copied().unwrap_or(0),
        };
        let longest = lengths.into_iter().max()?;
        let entries = (0..longest).map(|index| (index, entry(index))).collect();
        Some(Table { lengths, fill: Entry { level: 0, low: 0, high: 0 }, entries })
    }

    fn number<N: FromStr>(&self, name: &str) -> Option<N> {
        self.0.get(name)?.parse().ok()
    }

    /// Numbers parted by commas, or none at all.
    fn list<N: FromStr>(&self, name: &str) -> Option<Vec<N>> {
        match *self.0.get(name)? {
            "" => Some(vec![]),
            numbers => numbers.split(',').map(|number| number.parse().ok()).collect(),
        }
    }
}

#[cfg(test)]
mod tests {
    use super::*;

    const CODES: &str = "ln=0\tlx=0\trn=0\trx=0";

    fn look(table: &str, root: u64) -> Option<String> {
        let line = format!("1\tname\tlookup\t{table}\troot={root}\taction=1\t{CODES}\tvalue 1");
        rerun(&line).map(|rerun| rerun.got)
    }

    #[test]
    fn look_ups_are_read_from_their_lists() {
        let table = "level=255,255,0\tlow=0,1,0\thigh=0,1,1";
        assert_eq!(look(table, 2).as_deref(), Some("value 1"));
        assert_eq!(look(table, 3).as_deref(), Some("refused 10"));
        assert_eq!(look("level=\tlow=\thigh=", 0).as_deref(), Some("refused 7"));
        assert_eq!(look("level=255,255,256\tlow=0,1,0\thigh=0,1,1", 2), None);
        assert_eq!(look("level=255,255\tlow=0,1", 0), None);
    }

    #[test]
    fn comparisons_are_read_from_their_arguments() {
        let arguments = "left=000101/\tright=000101/\tlimit=1000000\tL=14";
        let answer = "strong equal 1 | weak equal 1 | 0 6 12";
        let rerun_as =
            |request: &str, call: &str| rerun(&format!("{request}\tP1\t{call}\t{arguments}\t{answer}"));
        let rerun = rerun_as("2", "compare").expect("well formed");
        assert_eq!((rerun.got.as_str(), rerun.expected.as_str()), (answer, answer));
        assert!(rerun_as("2", "compare1").is_none());
        assert!(rerun_as("two", "compare").is_none());
    }

    #[test]
    fn steps_are_read_from_their_text() {
        let words = |text: &str| rerun(&format!("4\tname\tsteps\ttext={text}\t")).map(|rerun| rerun.got);
        let exit = words("000102003E01/");
        assert_eq!(exit.as_deref(), Some("codes 0,1 | may 0.62.1 | must 0.62.1"));
        let three = words("000103000201020001/");
        assert_eq!(three.as_deref(), Some("codes 0,1,2 | may 0.2.1 2.0.1 | must 0.2.1 2.0.1"));
        assert_eq!(words("000101/").as_deref(), Some("codes 0 | may | must"));
        assert_eq!(words("000102003F01/"), None);
        assert!(rerun("4\tname\tsteps\tleft=000101/\t").is_none());
    }

    #[test]
    fn runs_of_the_program_are_read_from_their_files() {
        let printed = |files: &str| rerun(&format!("2\tname\tprogram\t{files}\t")).map(|rerun| rerun.got);
        assert_eq!(printed("left=-\tright=").as_deref(), Some("no input left/"));
        assert_eq!(printed("left=\tright=-").as_deref(), Some("no input right/"));
        let both = printed("left=000101/\tright=000101/");
        assert_eq!(both.as_deref(), Some("strong equal 1 12/weak equal 1 12/"));
        assert_eq!(printed("left=000101/"), None);
    }

    #[test]
    fn words_of_a_look_up_are_read_back() {
        assert_eq!(["value 0", "value 1", "refused 7", "refused 10"].map(looked_up), [0, 1, 7, 10].map(Some));
        assert_eq!(looked_up("value 7"), None);
    }
}
