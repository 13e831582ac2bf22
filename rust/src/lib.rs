//! A safe interface to the proved comparison of models: strong and weak bisimilarity of two model texts, both from one call.
//!
//! All answers come from the proved library; this crate lends it memory and puts names to its numbers. It derives three things of its own,
//! which are tested and not proved: the lines of a text as values ([`frames`]), how a state's code is laid out
//! ([`Model::layout`]), and all steps from a state, read from the table ([`Comparison::left_steps_from`]).
//!
//! ```
//! use seipolku::Table;
//!
//! let mut table = Table::new(4096).unwrap();
//! let compared = table.compare(b"000102000201\n", b"000103000001010202\n", 1_000_000).unwrap();
//! assert!(compared.strong.different() && compared.weak.equal());
//! assert_eq!(compared.weak.rounds(), Some(3));
//! assert_eq!(compared.weak.related(1, 2), Ok(Some(true)));
//! assert_eq!(compared.nodes.whole, 956);
//! ```

mod comparison;
mod ffi;
pub mod frames;
pub mod layout;
mod limits;
mod model;
mod nodes;
mod refusal;
mod steps;
mod table;

pub use comparison::{Comparison, Mode, Verdict};
pub use layout::{Layout, LeafUse};
pub use limits::{CODES, LAST_LEVEL, MAX_BITS};
pub use model::{model, Model};
pub use nodes::Nodes;
pub use refusal::{Fault, Refusal, Side};
pub use steps::Steps;
pub use table::{Root, Table, TableError, MAX_TABLE};
