//! What a subcommand gives back: an answer to print, or a failure said in a sentence.

use std::fmt;

pub const EQUAL: u8 = 0;
pub const DIFFERENT: u8 = 1;
/// The library refuses a model, a comparison or a verdict.
pub const REFUSED: u8 = 2;
/// Wrong words or files, or too large to list: the library is not asked, or its answer is not printed.
pub const FAILED: u8 = 3;

/// Text for standard output, remarks for standard error, and the exit status.
#[derive(Debug, Default)]
pub struct Outcome {
    pub text: String,
    pub notes: Vec<String>,
    pub status: u8,
}

impl Outcome {
    pub fn text(text: String) -> Outcome {
        Outcome { text, notes: Vec::new(), status: EQUAL }
    }
}

/// A sentence that says what is wrong with the words or files given, and what to do.
#[derive(Debug)]
pub struct Failure(pub String);

impl fmt::Display for Failure {
    fn fmt(&self, f: &mut fmt::Formatter<'_>) -> fmt::Result {
        f.write_str(&self.0)
    }
}

/// Why a subcommand has no answer: wrong words or files, or the library's refusal in words.
#[derive(Debug)]
pub enum Stopped {
    Failed(Failure),
    Refused(String),
}

impl From<Failure> for Stopped {
    fn from(failure: Failure) -> Stopped {
        Stopped::Failed(failure)
    }
}

impl Stopped {
    pub fn sentence(&self) -> &str {
        match self {
            Stopped::Failed(Failure(sentence)) | Stopped::Refused(sentence) => sentence,
        }
    }

    pub fn status(&self) -> u8 {
        match self {
            Stopped::Failed(_) => FAILED,
            Stopped::Refused(_) => REFUSED,
        }
    }
}

pub type Answer = Result<Outcome, Stopped>;

pub fn fail<T, E: From<Failure>>(sentence: impl Into<String>) -> Result<T, E> {
    Err(Failure(sentence.into()).into())
}

/// Something wrong at a place of a file; line and column are counted from 1, as editors do.
#[derive(Debug, Clone, PartialEq, Eq)]
pub struct Misplaced {
    pub line: usize,
    pub column: usize,
    pub sentence: String,
}

impl Misplaced {
    pub fn new(line: usize, column: usize, sentence: impl Into<String>) -> Misplaced {
        Misplaced { line, column, sentence: sentence.into() }
    }

    pub fn within(&self, file: &std::path::Path) -> Failure {
        Failure(format!("{}, line {}, column {}: {}", file.display(), self.line, self.column, self.sentence))
    }
}

pub fn misplaced<T>(line: usize, column: usize, sentence: impl Into<String>) -> Result<T, Misplaced> {
    Err(Misplaced::new(line, column, sentence))
}

/// "1 round", "2 rounds".
pub fn counted(number: u64, thing: &str) -> String {
    let ending = if number == 1 { "" } else { "s" };
    format!("{} {thing}{ending}", grouped(number))
}

/// A number with its thousands apart.
pub fn grouped(number: u64) -> String {
    let digits = number.to_string();
    let mut spelled = String::new();
    for (i, digit) in digits.chars().enumerate() {
        if i > 0 && (digits.len() - i) % 3 == 0 {
            spelled.push(',');
        }
        spelled.push(digit);
    }
    spelled
}

/// A sentence with a capital letter in front.
pub fn capital(sentence: &str) -> String {
    let mut letters = sentence.chars();
    match letters.next() {
        Some(first) => first.to_uppercase().collect::<String>() + letters.as_str(),
        None => String::new(),
    }
}
