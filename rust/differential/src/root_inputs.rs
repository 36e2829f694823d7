//! Inputs of the square root: every exponent, squares with their neighbours, and floats whose roots are as near to a number
//! of some digits, or to the middle of two floats, as there are.

use crate::{
    digits::ONE,
    edges::{edges, neighbour, POINTS, SIGN},
    inputs::{float, power, square},
};
use random_words::Words;
use std::f64::consts::SQRT_2;

/// The least and the greatest exponent of an aligned significand, and the least one of a float that isn't subnormal.
pub const LEAST: i64 = -1074;
const LEAST_NORMAL: i64 = -1022;
pub const GREATEST: i64 = 1022;

/// A significand in units of 2^-52 times 2^exponent, for an even exponent. A subnormal is rounded.
pub fn scaled(significand: u64, exponent: i64) -> u64 {
    let half = power(exponent / 2);
    (significand as f64 * power(-52) * half * half).to_bits()
}

/// Any even exponent that no subnormal has.
fn normal_exponent(words: &mut Words) -> i64 {
    2 * words.between(LEAST_NORMAL / 2, GREATEST / 2)
}

// ---- every exponent

const FRACTIONS: [u64; 12] = [
    0,
    1,
    2,
    3,
    0x5_5555_5555_5555,
    SQRT_2.to_bits() % ONE,
    ONE / 2 - 1,
    ONE / 2,
    ONE / 2 + 1,
    0xA_AAAA_AAAA_AAAA,
    ONE - 2,
    ONE - 1,
];

/// All exponents, those of zeros and subnormals and of infinities and NaNs among them, of both signs.
fn every_exponent(words: &mut Words) -> Vec<u64> {
    let mut all = Vec::new();
    for exponent in 0..2048 {
        let random = [words.any(), words.any()];
        let sizes = FRACTIONS.into_iter().chain(random).map(|fraction| float(0, exponent, fraction));
        all.extend(sizes.flat_map(|size| [size, size | SIGN]));
    }
    all
}

/// Subnormals of each count of digits: the least, the next, a random one and the greatest.
fn subnormals(words: &mut Words) -> Vec<u64> {
    let of = |more: u32| {
        let least = 1 << more;
        [least, least | 1, least + words.any() % least, 2 * least - 1]
    };
    (0..52).flat_map(of).collect()
}

// ---- squares

/// Odd roots of 1 to 27 digits, whose squares are floats or nearly so, and of 54 digits, which are middles of two floats.
fn roots(words: &mut Words) -> Vec<u64> {
    let of = |digits: u32| {
        let (least, greatest) = (1 << (digits - 1), (1 << digits) - 1);
        let random = [words.any(), words.any(), words.any()].map(|word| word & greatest | least | 1);
        [&[least | 1, greatest], &random[..]].concat()
    };
    (1..=27).chain([54]).flat_map(of).collect()
}

/// The aligned significand of a square, rounded where a float has too few digits for it.
fn significand_of_square(root: u64) -> u64 {
    let square = (u128::from(root).pow(2) as f64).to_bits();
    let significand = square % ONE + ONE;
    if square / ONE % 2 == 1 {
        significand
    } else {
        2 * significand
    }
}

/// Five squares at every even exponent, each with two neighbours on either side.
fn squares(words: &mut Words) -> Vec<u64> {
    let roots = roots(words);
    let exponents = (LEAST..=GREATEST).step_by(2);
    let squares = exponents.zip(0..).flat_map(|(exponent, i)| {
        let of = move |root| scaled(significand_of_square(root), exponent);
        [0, 1, 2, 3, 4].map(|k| of(roots[(5 * i + k) % roots.len()]))
    });
    squares.flat_map(|square| (-2..=2).map(move |steps| neighbour(square, steps))).collect()
}

// ---- near squares

/// An odd number whose square is c but for a multiple of 2^places, for a c that is 1 more than a multiple of 8: found from
/// the last digit up.
fn root_by_its_end(c: u64, places: u32) -> u64 {
    (3..places).fold(1_u64, |root, place| {
        let has_another = root.wrapping_mul(root).wrapping_sub(c) >> place & 1 == 1;
        root | u64::from(has_another) << (place - 1)
    })
}

/// Aligned significands that are less than a number's square by c units of its last place, or more than it where c is
/// negative; c is 1 more than a multiple of 8. The number has so many digits, 28 to 53, or 54 for a middle of two floats;
/// its first ones are those that are given, as far as c leaves a choice.
pub fn near_squares(digits: u32, c: i64, first: u64) -> Vec<u64> {
    // The square has these places more than the significand, and they are to be c.
    let places = 2 * digits - 54;
    let (end, least) = (1_u64 << places, 1_u64 << (digits - 1));
    let root = root_by_its_end(c as u64, places);
    let of = |root: u64| {
        let number = ((first << places) + root % end) % least + least;
        let significand = (i128::from(number).pow(2) - i128::from(c)) / i128::from(end);
        let significand = u64::try_from(significand).ok().filter(|found| (ONE..4 * ONE).contains(found))?;
        // From 2 up a significand's last place isn't a float's.
        let is_float = significand < 2 * ONE || significand % 2 == 0;
        (number % end == root % end && is_float).then_some(significand)
    };
    let others = [0, end / 2].map(|half| [root.wrapping_add(half), root.wrapping_neg().wrapping_add(half)]);
    others.into_iter().flatten().filter_map(of).collect()
}

/// Every number of digits with the least differences.
fn fixed_near_squares(words: &mut Words) -> Vec<u64> {
    let mut all = Vec::new();
    for digits in 28..=54 {
        for c in (-8..=8).map(|k| 8 * k + 1) {
            let found = near_squares(digits, c, words.any());
            all.extend(found.into_iter().map(|significand| scaled(significand, normal_exponent(words))));
        }
    }
    all
}

fn near_square(words: &mut Words) -> u64 {
    let digits = 28 + words.below(27) as u32;
    let c = (words.any() as i64 >> words.between(20, 61)) * 8 + 1;
    let found = near_squares(digits, c, words.any());
    if found.is_empty() {
        square(words)
    } else {
        scaled(words.choice(&found), normal_exponent(words))
    }
}

// ---- all

pub fn fixed() -> Vec<u64> {
    let words = &mut Words::new(1, "fixed roots", 0);
    [edges(&POINTS, 3), every_exponent(words), subnormals(words), squares(words), fixed_near_squares(words)].concat()
}

/// Any positive float mostly.
pub fn random(words: &mut Words) -> u64 {
    match words.below(16) {
        0 => words.any(),
        1 => (words.any() >> 12) >> words.below(52),
        2 => square(words),
        3 => near_square(words),
        _ => words.any() & !SIGN,
    }
}

#[cfg(test)]
mod tests {
    use super::*;
    use crate::digits::{aligned, Aligned, TURNS};

    /// A near square's radicand is less than the square by c of its units.
    #[test]
    fn near_squares_are_near() {
        let mut words = Words::new(1, "near", 0);
        for digits in 28..=54 {
            let mut found = 0;
            for c in (-200..200).map(|k| 8 * k + 1) {
                for significand in near_squares(digits, c, words.any()) {
                    let x = scaled(significand, normal_exponent(&mut words));
                    let Aligned { significand: again, .. } = aligned(x).unwrap();
                    assert_eq!(again, significand);
                    // In units of a quarter of the radicand's, so that a middle's square is whole.
                    let radicand = 4 * i128::from(significand) * i128::from(ONE);
                    let unit = 4_i128.pow(TURNS + 1 - digits);
                    let square = radicand + i128::from(c) * unit;
                    let root = (square / unit).isqrt();
                    assert!(root * root * unit == square && root >> (digits - 1) == 1, "{digits} {c}");
                    found += 1;
                }
            }
            assert!(found >= 400, "{digits}: {found}");
        }
    }
}
