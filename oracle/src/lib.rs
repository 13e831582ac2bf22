//! An explicit-state program for comparing models, written from document 01 and document 02's points 1, 2 and 4 to 7 alone.
//!
//! The verdicts come from an iteration over explicit pairs of states (`bisim`).
//! The node counts come from evaluating the joined list of functions (`list`).

pub mod answer;
pub mod bisim;
pub mod bits;
pub mod calls;
pub mod codes;
pub mod diagram;
pub mod generate;
pub mod list;
pub mod lookup;
pub mod model;
pub mod program;
pub mod random;
pub mod reader;
pub mod reorder;
pub mod requests;
pub mod steps;
pub mod stream;
pub mod tables;
pub mod texts;
pub mod vectors;

pub use answer::{compare, largest, steps, Answer};
