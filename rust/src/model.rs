//! What the model of a text is.

use crate::ffi;
use crate::frames::Lines;
use crate::layout::Layout;
use crate::refusal::Refusal;

/// The model of an accepted text. The numbers are those of the proved library.
#[derive(Clone, Debug, PartialEq, Eq)]
pub struct Model {
    /// The bits of a state's code, at most [`MAX_BITS`](crate::MAX_BITS): codes are 0 to 2^bits - 1, and 0 is the start.
    pub bits: u64,
    /// The lines of the text.
    pub lines: u64,
    /// How many leaves the model uses, each use counted.
    pub uses: u64,
    /// Its states, reachable or not: each operator's by those of its operands, n1 and n2. Compose and joint have n1 * n2, an enabling
    /// n1 + n2, a disabling 2 * n1 + n2.
    pub states: u64,
    /// Which bits of a state's code hold the state of each leaf use, and which codes are states.
    pub layout: Layout,
}

/// The model of a text, or its refusal: 1 to 6, with the side of a left text.
///
/// The layout is derived from the text's lines. It says which codes are states:
///
/// ```
/// // A leaf of two states that exits, enabling itself: 0 and 2 are states of the first, 1 and 5 of the second.
/// let model = seipolku::model(b"000102003E01\n01070000\n").unwrap();
/// assert_eq!((model.bits, model.states, model.layout.codes()), (3, 4, vec![0, 1, 2, 5]));
/// assert_eq!(model.layout.alive(5), Some(vec![false, true]));
/// assert_eq!(model.layout.alive(3), None);
/// ```
///
/// # Panics
///
/// If the layout does not add up to the numbers of the library, which would be a fault of this crate.
pub fn model(text: &[u8]) -> Result<Model, Refusal> {
    let mut answer = [0; ffi::MODEL_WORDS];
    // SAFETY: each pointer comes with the length of its slice; the library writes to the answer only.
    let kind = unsafe { ffi::seipolku_model(text.as_ptr(), text.len(), answer.as_mut_ptr(), answer.len()) };
    if kind == ffi::REFUSED {
        return Err(Refusal::of(answer[0], answer[1], answer[2]));
    }
    let [bits, lines, uses, states, ..] = answer;
    let decoded = Lines::decode(text).unwrap_or_default();
    let numbers = |layout: &Layout| {
        [u64::from(layout.bits), decoded.frames.len() as u64, layout.uses as u64, layout.states]
    };
    match decoded.layout().filter(|layout| numbers(layout) == [bits, lines, uses, states]) {
        Some(layout) => Ok(Model { bits, lines, uses, states, layout }),
        None => panic!("the layout does not add up to {answer:?}; please report this with the model"),
    }
}
