//! The lines of a model text as values.

pub use seipolku::frames::{
    bytes, Frame, Lines as Model, Triple, EXIT, EXIT_CHANNEL, MOST_BYTES, MOST_CHANNEL, MOST_LINES,
    MOST_STATES, MOST_TRIPLES,
};
