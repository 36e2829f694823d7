//! What refuses a call: each cause looked for by itself, in the order of the checks, and questions that have any set of them.
//! A call that has two causes shows which of two checks is the first.

use crate::{
    borders::NAN,
    edges::{INFINITY, SIGN},
    markets::Question,
    rule_sets::{known, UNKNOWN},
};
use random_words::Words;
use rust_over_rules::book::kind_of;

/// The checks of a question, in their order, and those of each call.
pub const OF_QUESTIONS: [&str; 6] = ["32", "24", "1", "2", "3", "4"];
pub const WITH_A_TRAIL: [&str; 7] = ["32", "24", "1", "2", "3", "4", "21"];
pub const OF_FILE: [&str; 8] = ["32", "24", "1", "2", "3", "4", "23", "22"];
pub const OF_RECHECK: [&str; 7] = ["23", "24", "32", "1", "2", "3", "4"];

/// Kinds that are none, and floats that are refused: prices and sizes.
pub const KINDS: [u8; 3] = [0, 3, 255];
const PRICES: [u64; 3] = [NAN, INFINITY, INFINITY | SIGN];
const SIZES: [u64; 7] = [0, SIGN, 1, f64::MIN_POSITIVE.to_bits() - 1, INFINITY, NAN, 0xBFF0 << 48];

/// Whether the number is no rule set's.
pub fn is_unknown(rule_set: u32) -> bool {
    rule_set > 1
}

/// Whether a forward, a strike or an expiry is refused.
pub fn is_refused(x: f64) -> bool {
    !x.is_normal() || x < 0.0
}

/// Those of the names that stand beside a true.
pub fn found<const N: usize>(names: [&'static str; N], found: [bool; N]) -> Vec<&'static str> {
    names.into_iter().zip(found).filter(|(_, found)| *found).map(|(name, _)| name).collect()
}

/// What refuses a question, in the order of its checks.
pub fn of_question(question: Question) -> Vec<&'static str> {
    let [price, forward, strike, expiry] = question.floats.map(f64::from_bits);
    let [forward, strike, expiry] = [forward, strike, expiry].map(is_refused);
    let kind = kind_of(question.kind).is_none();
    found(OF_QUESTIONS, [is_unknown(question.rule_set), kind, !price.is_finite(), forward, strike, expiry])
}

/// How many sets of a question's causes there are.
pub const SETS: u32 = 1 << OF_QUESTIONS.len();

/// A question that nothing refuses, with a set of causes: bit i is that of check i. The turn says which value a cause has.
pub fn with_causes(mut question: Question, set: u32, turn: u64) -> Question {
    let has = |i: usize| set >> i & 1 == 1;
    let place = |among: usize| turn as usize % among;
    question.rule_set = if has(0) { UNKNOWN[place(UNKNOWN.len())] } else { known(turn) };
    if has(1) {
        question.kind = KINDS[place(KINDS.len())];
    }
    if has(2) {
        question.floats[0] = PRICES[place(PRICES.len())];
    }
    for i in (1..4).filter(|i| has(2 + i)) {
        question.floats[i] = SIZES[(place(SIZES.len()) + i) % SIZES.len()];
    }
    question
}

/// A question that nothing refuses, with every set of causes, each so often that every value of a cause is there.
pub fn every_set(question: Question, mut each: impl FnMut(Question)) {
    for set in 0..SETS {
        (0..12).for_each(|turn| each(with_causes(question, set, turn)));
    }
}

/// The same with a random set: about two causes.
pub fn some_set(words: &mut Words, question: Question) -> Question {
    let causes = [words.below(6), words.below(6), words.below(12)];
    let set = causes.into_iter().filter(|cause| *cause < 6).fold(0, |set, cause| set | 1 << cause);
    with_causes(question, set, words.any() >> 32)
}

#[cfg(test)]
mod tests {
    use super::*;
    use crate::solves::fixed_questions;

    /// A question has the causes that are put into it.
    #[test]
    fn causes_are_found_again() {
        for set in 0..SETS {
            for turn in 0..84 {
                let found = of_question(with_causes(fixed_questions()[0], set, turn));
                let expected = (0..6).filter(|i| set >> i & 1 == 1).map(|i| OF_QUESTIONS[i]);
                assert_eq!(found, expected.collect::<Vec<_>>(), "{set} {turn}");
            }
        }
    }
}
