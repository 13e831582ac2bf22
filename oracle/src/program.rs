//! The program's runs: what it prints for two files.

use crate::answer::{Answer, Checked};
use crate::vectors::Case;

const LIMIT: u64 = 1_000_000;
const LENGTH: usize = 4096;

/// 64 lines of 510 digits and their ends; a longer file is taken as one that can't be read.
const LONGEST: usize = 64 * 511;

/// The contents of left.hex and right.hex; none of a missing file.
#[derive(Clone, Debug)]
pub struct Files {
    pub left: Option<Vec<u8>>,
    pub right: Option<Vec<u8>>,
}

impl Files {
    /// The comparison that the program makes; none if a file can't be read.
    pub fn case(&self) -> Option<Case> {
        let (left, right) = (readable(&self.left)?.clone(), readable(&self.right)?.clone());
        Some(Case { left, right, limit: LIMIT, length: LENGTH })
    }

    /// What is printed, and whether explicit states gave the verdicts too.
    pub fn run(&self) -> (String, bool) {
        match self.case() {
            Some(case) => {
                let Checked { answer, explicit } = case.run();
                (printed(answer), explicit)
            }
            None if readable(&self.left).is_none() => ("no input left\n".to_string(), false),
            None => ("no input right\n".to_string(), false),
        }
    }
}

fn readable(file: &Option<Vec<u8>>) -> Option<&Vec<u8>> {
    file.as_ref().filter(|bytes| bytes.len() <= LONGEST)
}

/// A line for each mode, with the joined count beside a verdict; a refusal of the call stands on both.
pub fn printed(answer: Answer) -> String {
    let [strong, weak] = answer.lines();
    format!("strong {strong}\nweak {weak}\n")
}
