//! The rule sets' numbers that a call has.

use random_words::Words;

pub const KNOWN: [u32; 2] = [0, 1];

/// Beside the known ones, about a byte's end, and the last.
pub const UNKNOWN: [u32; 4] = [2, 255, 256, u32::MAX];

/// 0 and 1 by halves, and one in 32 an unknown one.
pub fn any(words: &mut Words) -> u32 {
    match words.below(64) {
        0 => words.choice(&UNKNOWN),
        1 => words.any() as u32,
        n => known(n),
    }
}

/// 0 and 1 by turns.
pub fn known(turn: u64) -> u32 {
    (turn % 2) as u32
}
