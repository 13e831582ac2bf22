//! The calls of the proved library. Verdicts, refusals and every step and pair that is listed come from here; that a listing misses no
//! step is tested, not proved.

use crate::outcome::{fail, grouped, Failure};
use seipolku::{model, Comparison, Fault, Model, Refusal, Root, Side, Table, TableError, MAX_TABLE};

pub const LIMIT: u64 = 1_000_000;
pub const ENTRIES: u64 = MAX_TABLE as u64;

/// A model of one state without steps.
const IDLE: &[u8] = b"000101\n";

/// A table of any length: with one that no table has, every comparison is refused with 7.
pub struct Lent(Option<Table>);

/// Lends a table of so many entries.
pub fn table(entries: u64) -> Result<Lent, Failure> {
    match Table::new(usize::try_from(entries).unwrap_or(usize::MAX)) {
        Ok(table) => Ok(Lent(Some(table))),
        Err(TableError::Length) => Ok(Lent(None)),
        Err(TableError::Memory) => {
            fail(format!("there is no memory for a table of {} entries.", grouped(entries)))
        }
    }
}

impl Lent {
    pub fn get(&mut self) -> Result<&mut Table, Refusal> {
        self.0.as_mut().ok_or(Refusal { fault: Fault::Table, side: Side::Neither, line: 0 })
    }
}

/// Why the library does not accept a text, if it does not.
pub fn refusal(text: &[u8]) -> Option<Refusal> {
    model(text).err()
}

/// The derived steps of a model, as the library shows them.
pub struct Relation<'t> {
    shown: Comparison<'t>,
    model: Model,
}

impl<'t> Relation<'t> {
    /// Compares with a model that has no steps, up to no round: the relation is shown all the same, and little is worked out beside it
    /// and its weak answers.
    pub fn of(text: &[u8], table: &'t mut Lent) -> Result<Relation<'t>, Refusal> {
        let model = model(text)?;
        Ok(Relation { shown: table.get()?.compare(text, IDLE, 0)?, model })
    }

    /// The steps from a state, by action and next code, or so many of them. They are found in the table, and the library confirms each one.
    pub fn steps(&self, now: u64, most: usize) -> Result<Vec<(u8, u64)>, Failure> {
        let mut steps = Vec::new();
        for (action, next) in self.shown.left_steps_from(now, &self.model).map_err(unexpected)?.take(most) {
            if !look_up(self.shown.left, action, [now, next, 0, 0])? {
                return fail("a step that was found does not hold; please report this with the model.");
            }
            steps.push((action as u8, next));
        }
        steps.sort_unstable();
        Ok(steps)
    }
}

pub fn look_up(root: Root<'_>, action: u64, codes: [u64; 4]) -> Result<bool, Failure> {
    root.look_up(action, codes).map_err(unexpected)
}

/// A refusal that no code of a model gives.
fn unexpected(refusal: Refusal) -> Failure {
    Failure(format!("the library refused a look-up ({refusal}); please report this with the model."))
}
