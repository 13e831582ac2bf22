//! Files of expected answers: name, left, right, limit, L and answer, parted by tabs.

use std::fmt::Write;

use crate::answer::{compare_checked, Answer, Checked};

/// The arguments of one comparison.
#[derive(Clone, Debug, PartialEq, Eq)]
pub struct Case {
    pub left: Vec<u8>,
    pub right: Vec<u8>,
    pub limit: u64,
    pub length: usize,
}

impl Case {
    pub fn run(&self) -> Checked {
        let lens = (self.length, self.length, self.length);
        compare_checked(&self.left, &self.right, self.limit, lens)
    }

    /// This line's answer worked out anew.
    pub fn rerun(&self, name: String, expected: String) -> Rerun {
        let Checked { answer, explicit } = self.run();
        Rerun { name, expected, got: answer.to_string(), explicit }
    }

    /// The vectors line with this answer.
    pub fn line(&self, name: &str, answer: Answer) -> String {
        let (left, right) = (escape(&self.left), escape(&self.right));
        let Case { limit, length, .. } = self;
        format!("{name}\t{left}\t{right}\t{limit}\t{length}\t{answer}")
    }
}

/// The answer that a stored line expects and the one that was worked out now; whether explicit states gave that too.
#[derive(Clone, Debug)]
pub struct Rerun {
    pub name: String,
    pub expected: String,
    pub got: String,
    pub explicit: bool,
}

/// One line of a file of vectors.
#[derive(Clone, Debug, PartialEq, Eq)]
pub struct Vector {
    pub name: String,
    pub case: Case,
    pub expected: String,
}

/// The vector of a line; none if the line is malformed.
pub fn parse(line: &str) -> Option<Vector> {
    let fields: Vec<&str> = line.split('\t').collect();
    let &[name, left, right, limit, length, expected] = fields.as_slice() else {
        return None;
    };
    let case = Case {
        left: unescape(left)?,
        right: unescape(right)?,
        limit: limit.parse().ok()?,
        length: length.parse().ok()?,
    };
    Some(Vector { name: name.to_string(), case, expected: expected.to_string() })
}

/// A line's answer worked out anew; none if the line is malformed.
pub fn rerun(line: &str) -> Option<Rerun> {
    let Vector { name, case, expected } = parse(line)?;
    Some(case.rerun(name, expected))
}

/// Whether a line of a file holds a vector or a call: neither empty nor a comment.
pub fn is_vector(line: &str) -> bool {
    !line.is_empty() && !line.starts_with('#')
}

/// `/` stands for byte 0A and `\xHH` for byte HH; none if an escape is malformed.
pub fn unescape(text: &str) -> Option<Vec<u8>> {
    let mut bytes = Vec::new();
    let mut rest = text.as_bytes();
    while let Some((&byte, tail)) = rest.split_first() {
        rest = tail;
        match byte {
            b'/' => bytes.push(b'\n'),
            b'\\' => {
                let digits = std::str::from_utf8(rest.get(1..3)?).ok()?;
                bytes.push(u8::from_str_radix(digits, 16).ok()?);
                rest = &rest[3..];
            }
            _ => bytes.push(byte),
        }
    }
    Some(bytes)
}

/// What a program prints, `/` for its line ends.
pub fn escape_lines(printed: &str) -> String {
    printed.replace('\n', "/")
}

pub fn escape(bytes: &[u8]) -> String {
    let mut text = String::new();
    for &byte in bytes {
        match byte {
            b'\n' => text.push('/'),
            b'0'..=b'9' | b'A'..=b'F' => text.push(byte.into()),
            _ => write!(text, "\\x{byte:02X}").expect("writing to a string"),
        }
    }
    text
}
