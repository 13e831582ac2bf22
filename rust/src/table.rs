//! Tables, the call of a comparison, and the roots that it leaves.

use std::alloc::{alloc_zeroed, Layout};
use std::fmt;

use crate::comparison::Comparison;
use crate::ffi;
use crate::limits::MAX_BITS;
use crate::model::Model;
use crate::refusal::{Fault, Refusal, Side};
use crate::steps::Steps;

/// The most entries that a table may have.
pub const MAX_TABLE: usize = 1 << 20;

/// Why there is no table.
#[derive(Clone, Copy, Debug, PartialEq, Eq)]
pub enum TableError {
    /// A table has 2 to [`MAX_TABLE`] entries; with another length the library refuses every comparison with 7.
    Length,
    /// The memory for it could not be had.
    Memory,
}

impl fmt::Display for TableError {
    fn fmt(&self, f: &mut fmt::Formatter<'_>) -> fmt::Result {
        f.write_str(match self {
            TableError::Length => "a table has 2 to 1,048,576 entries",
            TableError::Memory => "there is no memory for the table",
        })
    }
}

impl std::error::Error for TableError {}

/// A table and the memory to work on it.
pub struct Table {
    level: Vec<u8>,
    low: Vec<u32>,
    high: Vec<u32>,
    work: Vec<u32>,
}

impl fmt::Debug for Table {
    fn fmt(&self, f: &mut fmt::Formatter<'_>) -> fmt::Result {
        f.debug_struct("Table").field("entries", &self.level.len()).field("work", &self.work.len()).finish()
    }
}

impl Table {
    /// A table of so many entries, with work memory of the recommended length.
    pub fn new(entries: usize) -> Result<Table, TableError> {
        Table::with_work(entries, entries.saturating_mul(4))
    }

    /// A table with so many words for work, which holds the hash index and the computed table; the length changes the time and no
    /// answer.
    pub fn with_work(entries: usize, work: usize) -> Result<Table, TableError> {
        if !(2..=MAX_TABLE).contains(&entries) {
            return Err(TableError::Length);
        }
        Ok(Table { level: zeros(entries)?, low: zeros(entries)?, high: zeros(entries)?, work: zeros(work)? })
    }

    /// Compares the models of two texts, strongly and weakly, each by its iterates up to the limit. The answer borrows the table, which
    /// can't be used for another comparison as long as something is looked up in this one:
    ///
    /// ```compile_fail,E0499
    /// # use seipolku::Table;
    /// let mut table = Table::new(4096).unwrap();
    /// let first = table.compare(b"000101\n", b"000101\n", 9).unwrap();
    /// let second = table.compare(b"000102\n", b"000102\n", 9).unwrap();
    /// first.weak.related(0, 0).unwrap();
    /// ```
    ///
    /// The same in an order that is possible:
    ///
    /// ```
    /// # use seipolku::Table;
    /// let mut table = Table::new(4096).unwrap();
    /// let first = table.compare(b"000101\n", b"000101\n", 9).unwrap();
    /// first.weak.related(0, 0).unwrap();
    /// let second = table.compare(b"000102\n", b"000102\n", 9).unwrap();
    /// second.weak.related(0, 0).unwrap();
    /// ```
    ///
    /// A refusal is that of the whole comparison: of a text, or with [`Fault::Full`] where the nodes that both verdicts need together do not
    /// fit, also where those of one of them would; [`Nodes`](crate::Nodes) tells what fills the table then. A verdict that does not fall by
    /// the limit is [`Verdict::Undecided`](crate::Verdict::Undecided), and all else is given:
    ///
    /// ```
    /// # use seipolku::{Table, Verdict};
    /// let (left, right) = (b"000102000201\n", b"000103000001010202\n");
    /// let mut table = Table::new(4096).unwrap();
    /// let compared = table.compare(left, right, 1).unwrap();
    /// assert!(matches!(compared.strong, Verdict::Different { rounds: 1 }));
    /// assert!(matches!(compared.weak, Verdict::Undecided));
    /// assert_eq!(compared.right_steps(0, 0, 1), Ok(true));
    /// assert_eq!(Table::new(386).unwrap().compare(left, right, 0).unwrap_err().fault.number(), 8);
    /// ```
    pub fn compare(&mut self, left: &[u8], right: &[u8], limit: u64) -> Result<Comparison<'_>, Refusal> {
        let mut answer = [0; ffi::ANSWER_WORDS];
        match self.call([left, right], limit, &mut answer) {
            ffi::REFUSED => Err(Refusal::of_comparison(&answer)),
            _ => Ok(Comparison::of(self, answer)),
        }
    }

    /// Level and children of a node; nothing for a constant.
    pub(crate) fn node(&self, entry: u32) -> Option<(u32, [u32; 2])> {
        let at = usize::try_from(entry).ok().filter(|at| *at > 1)?;
        Some((u32::from(*self.level.get(at)?), [*self.low.get(at)?, *self.high.get(at)?]))
    }

    fn call(&mut self, [left, right]: [&[u8]; 2], limit: u64, answer: &mut [u64; ffi::ANSWER_WORDS]) -> u64 {
        // SAFETY: each pointer comes with the length of the slice that it points to; the slices are apart, and the library
        // writes to those that are lent as mutable only.
        unsafe {
            ffi::seipolku_compare(
                left.as_ptr(),
                left.len(),
                right.as_ptr(),
                right.len(),
                limit,
                self.level.as_mut_ptr(),
                self.level.len(),
                self.low.as_mut_ptr(),
                self.low.len(),
                self.high.as_mut_ptr(),
                self.high.len(),
                self.work.as_mut_ptr(),
                self.work.len(),
                answer.as_mut_ptr(),
                answer.len(),
            )
        }
    }
}

/// So many zeros, which the system hands out as they are first used.
fn zeros<T: Number>(len: usize) -> Result<Vec<T>, TableError> {
    let layout = Layout::array::<T>(len).map_err(|_| TableError::Memory)?;
    if layout.size() == 0 {
        return Ok(Vec::new());
    }
    // SAFETY: the layout has a size; it is that of a vector with this capacity; and bytes of 0 are a number.
    unsafe {
        let start = alloc_zeroed(layout).cast::<T>();
        match start.is_null() {
            true => Err(TableError::Memory),
            false => {
                large_pages(start as usize, layout.size());
                Ok(Vec::from_raw_parts(start, len, len))
            }
        }
    }
}

/// Asks the system for large pages behind the whole pages from `start` on. The first comparison in a table clears its work memory, and most of its
/// time would go into handing that out by small pages. Where the system has none, nothing changes.
#[cfg(target_os = "linux")]
fn large_pages(start: usize, bytes: usize) {
    const PAGE: usize = 4096;
    const MADV_HUGEPAGE: i32 = 14;
    extern "C" {
        fn madvise(start: usize, bytes: usize, advice: i32) -> i32;
    }
    let first = (start + PAGE - 1) / PAGE * PAGE;
    let whole = (start + bytes).saturating_sub(first) / PAGE * PAGE;
    // SAFETY: the pages belong to one allocation, and this advice changes no content. That it is refused is no fault.
    let _ = unsafe { madvise(first, whole, MADV_HUGEPAGE) };
}

#[cfg(not(target_os = "linux"))]
fn large_pages(_start: usize, _bytes: usize) {}

/// The types of which bytes of 0 are a value.
trait Number {}
impl Number for u8 {}
impl Number for u32 {}

/// An entry of the table that a comparison left. It borrows that table, so it is looked up there and as long as the table stays as it is:
///
/// ```compile_fail,E0499
/// # use seipolku::Table;
/// let mut table = Table::new(4096).unwrap();
/// let root = table.compare(b"000101\n", b"000101\n", 9).unwrap().left;
/// std::mem::swap(&mut table, &mut Table::new(4096).unwrap());
/// root.look_up(0, [0; 4]).unwrap();
/// ```
#[derive(Clone, Copy)]
pub struct Root<'t> {
    pub(crate) table: &'t Table,
    pub(crate) entry: u64,
}

impl fmt::Debug for Root<'_> {
    fn fmt(&self, f: &mut fmt::Formatter<'_>) -> fmt::Result {
        f.debug_tuple("Root").field(&self.entry).finish()
    }
}

impl<'t> Root<'t> {
    /// The value at an action and four state codes: left now and next, right now and next. Refused with 10 where the action is above
    /// 63 or a code is not below [`CODES`](crate::CODES).
    pub fn look_up(&self, action: u64, codes: [u64; 4]) -> Result<bool, Refusal> {
        let Table { level, low, high, .. } = self.table;
        // SAFETY: as in `Table::call`; nothing is written.
        let value = unsafe {
            ffi::seipolku_look_up(
                level.as_ptr(),
                level.len(),
                low.as_ptr(),
                low.len(),
                high.as_ptr(),
                high.len(),
                self.entry,
                action,
                codes[0],
                codes[1],
                codes[2],
                codes[3],
            )
        };
        match value {
            0 => Ok(false),
            1 => Ok(true),
            number => Err(refused(number)),
        }
    }

    /// The steps from a code that a relation holds; the slot is the one of the model's now code.
    pub(crate) fn steps(&self, slot: u32, now: u64, model: &Model) -> Result<Steps<'t>, Refusal> {
        match (u32::try_from(model.bits), u32::try_from(self.entry)) {
            (Ok(bits), Ok(root)) if bits <= MAX_BITS && now < 1 << bits => {
                Ok(Steps::new(self.table, root, slot, bits, now))
            }
            _ => Err(refused(Fault::LookUp.number())),
        }
    }
}

/// The refusal of a look-up.
fn refused(number: u64) -> Refusal {
    Refusal { fault: Fault::of(number), side: Side::Neither, line: 0 }
}
