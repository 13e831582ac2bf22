//! The functions of the static library, as `include/seipolku.h` declares them.

extern "C" {
    pub fn seipolku_compare(
        left: *const u8,
        left_len: usize,
        right: *const u8,
        right_len: usize,
        limit: u64,
        level: *mut u8,
        level_len: usize,
        low: *mut u32,
        low_len: usize,
        high: *mut u32,
        high_len: usize,
        work: *mut u32,
        work_len: usize,
        answer: *mut u64,
        answer_len: usize,
    ) -> u64;

    pub fn seipolku_look_up(
        level: *const u8,
        level_len: usize,
        low: *const u32,
        low_len: usize,
        high: *const u32,
        high_len: usize,
        root: u64,
        action: u64,
        left_now: u64,
        left_next: u64,
        right_now: u64,
        right_next: u64,
    ) -> u64;

    pub fn seipolku_model(text: *const u8, text_len: usize, answer: *mut u64, answer_len: usize) -> u64;
}

/// What a call returns with a refusal in its answer.
pub const REFUSED: u64 = 2;

/// The number of the refusal that tells where the nodes went.
pub const FULL: u64 = 8;

/// How many words the answer of `seipolku_compare` has.
pub const ANSWER_WORDS: usize = 12;

/// How many that of `seipolku_model` has.
pub const MODEL_WORDS: usize = 6;

/// The values of a verdict; the third one is 9, no verdict by the limit.
pub const EQUAL: u64 = 0;
pub const DIFFERENT: u64 = 1;
