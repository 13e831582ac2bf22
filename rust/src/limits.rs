//! The limits of state codes. All that depends on them follows from [`MAX_BITS`].

/// The most bits of a state's code.
pub const MAX_BITS: u32 = 24;

/// State codes are below this number, in each of a look-up's places.
pub const CODES: u64 = 1 << MAX_BITS;

/// The bits of an action: the first levels of a table's nodes.
pub(crate) const ACTION_BITS: u32 = 6;

/// The levels of each bit of a code: now, next and middle of the left model, then of the right one.
pub(crate) const SLOTS: u32 = 6;

/// The largest level of a table's node.
pub const LAST_LEVEL: u32 = ACTION_BITS + SLOTS * MAX_BITS - 1;
