//! The tokens of one line of the readable form or of a name table.

use crate::outcome::{misplaced, Misplaced};
use crate::words::plain;

#[derive(Clone, Debug, PartialEq, Eq)]
pub enum Token {
    /// A bare word: a name or a keyword.
    Word(String),
    /// A name in quotes, never a keyword.
    Quoted(String),
    /// `--`, `-->`, `=` or `,`.
    Mark(&'static str),
}

/// A token and the column where it starts, counted from 1.
#[derive(Clone, Debug, PartialEq, Eq)]
pub struct Placed {
    pub token: Token,
    pub column: usize,
}

impl Placed {
    pub fn is(&self, word: &str) -> bool {
        match &self.token {
            Token::Word(w) => w == word,
            Token::Mark(m) => *m == word,
            Token::Quoted(_) => false,
        }
    }

    pub fn name(&self) -> Option<&str> {
        match &self.token {
            Token::Word(name) | Token::Quoted(name) => Some(name),
            Token::Mark(_) => None,
        }
    }
}

const MARKS: [&str; 4] = ["-->", "--", "=", ","];

/// The tokens of a line; `#` starts a remark.
pub fn tokens(number: usize, line: &str) -> Result<Vec<Placed>, Misplaced> {
    let letters: Vec<char> = line.chars().collect();
    let mut found = Vec::new();
    let mut at = 0;
    while let Some(&c) = letters.get(at) {
        if c == '#' {
            break;
        }
        if c.is_whitespace() {
            at += 1;
            continue;
        }
        let (token, end) = token(number, &letters, at)?;
        found.push(Placed { token, column: at + 1 });
        at = end;
    }
    Ok(found)
}

fn token(number: usize, letters: &[char], at: usize) -> Result<(Token, usize), Misplaced> {
    if letters[at] == '"' {
        return quotation(number, letters, at);
    }
    let length = letters[at..].iter().take_while(|c| plain(**c)).count();
    if length > 0 {
        return Ok((Token::Word(letters[at..at + length].iter().collect()), at + length));
    }
    let mark = MARKS.iter().find(|m| m.chars().eq(letters[at..].iter().copied().take(m.len())));
    match mark {
        Some(mark) => Ok((Token::Mark(mark), at + mark.len())),
        None => misplaced(
            number,
            at + 1,
            format!(
                "'{}' has no meaning here; put a name with such a character into quotes.",
                letters[at].escape_debug()
            ),
        ),
    }
}

/// A name in quotes, with \" and \\ for a quote and a backslash.
fn quotation(number: usize, letters: &[char], start: usize) -> Result<(Token, usize), Misplaced> {
    let mut name = String::new();
    let mut at = start + 1;
    while let Some(&c) = letters.get(at) {
        match (c, letters.get(at + 1)) {
            ('"', _) if name.is_empty() => {
                return misplaced(number, start + 1, "this name is empty; write a name between the quotes.")
            }
            ('"', _) => return Ok((Token::Quoted(name), at + 1)),
            ('\\', Some(&next @ ('"' | '\\'))) => {
                name.push(next);
                at += 1;
            }
            ('\\', _) => {
                return misplaced(
                    number,
                    at + 1,
                    "only \\\" and \\\\ may follow a backslash; write \\\\ for a backslash.",
                )
            }
            _ if c.is_control() => {
                return misplaced(number, at + 1, "a name can't have a control character; leave it out.")
            }
            _ => name.push(c),
        }
        at += 1;
    }
    misplaced(
        number,
        start + 1,
        "this quote is not closed; end the name with a second quote on the same line.",
    )
}
