//! Inputs of packed prices: every half-byte at every place, and floats about every multiple and every half of a unit that is
//! short, about all powers of two, the ties that are floats, and the border of 15 digits.

use crate::{
    edges::{edges, neighbour, NANS, POINTS, SIGN},
    inputs::{between_powers, float},
    packed::{significand, Packed, Price, DIGITS, MOST, UNITS},
};
use random_words::Words;

/// The greatest float that is written.
pub const GREATEST: u64 = 0x4237_4876_E7FF_FFFC;

/// A number of halves of a unit in decimal digits, read by std.
fn of_halves(halves: u64) -> u64 {
    let digits = u128::from(halves) * 5;
    let ten = u128::from(10 * UNITS);
    let text = format!("{}.{:05}", digits / ten, digits % ten);
    text.parse::<f64>().expect("a number").to_bits()
}

/// A number of so many digits.
fn of_digits(words: &mut Words, digits: u32) -> u64 {
    let above = 10_u64.pow(digits);
    above / 10 + words.below(above - above / 10)
}

fn sorted(mut all: Vec<u64>, size: impl Fn(u64) -> u64) -> Vec<u64> {
    all.sort_unstable_by_key(|x| (size(*x), *x));
    all.dedup();
    all
}

// ---- packed prices

/// The bytes with this half-byte at a place; place 15 is the sign's.
pub fn with_half_byte(packed: Packed, place: usize, half_byte: u64) -> Packed {
    let at = 4 * (DIGITS - place);
    let word = u64::from_be_bytes(packed);
    (word & !(15 << at) | half_byte << at).to_be_bytes()
}

pub fn packed(units: u64, is_negative: bool) -> Packed {
    Price { units, is_negative: is_negative && units != 0 }.packed()
}

/// Numbers from the first one on whose float is rounded from as near to a middle of two as there is, on either side.
pub fn near_middles(first: u64) -> [u64; 2] {
    let from = |rest| (first..).find(|units| significand(*units).0.rest() == rest).expect("one in 625");
    [4992, 5008].map(from)
}

/// Short ones, powers of ten and of two and those beside them, a single digit at each place, and of each length some.
fn fixed_units(words: &mut Words) -> Vec<u64> {
    let mut all: Vec<u64> = (0..=20_000).chain(MOST - 20..=MOST).collect();
    for digits in 0..=DIGITS as u32 {
        let power = 10_u64.pow(digits);
        all.extend((power.saturating_sub(3)..=power + 3).chain((1..=9).map(|digit| digit * power)));
        all.extend((0..20).map(|_| of_digits(words, digits)));
        all.extend(near_middles(power).into_iter().chain(near_middles(of_digits(words, digits).max(1))));
    }
    for place in 0..50 {
        let power = 1_u64 << place;
        all.extend((power.saturating_sub(2)..=power + 2).chain([5 * power, 25 * power, 125 * power, 625 * power]));
        all.extend(near_middles(power));
    }
    all.retain(|units| *units <= MOST);
    all
}

/// Bytes whose places are changed in turn: zeros, nines, digits that differ, and such as nothing accepts.
const BASES: [u64; 10] = [
    0xC,
    0xD,
    0x1C,
    0x1D,
    0x1000_0000_0000_000D,
    0x1234_5678_9012_345C,
    0x9876_5432_1098_765D,
    0x9999_9999_9999_999C,
    0x9999_9999_9999_999D,
    0xFFFF_FFFF_FFFF_FFFF,
];

/// By their numbers of units as far as they have one, so that a difference is told at a short one.
pub fn fixed_packed() -> Vec<Packed> {
    let mut words = Words::new(1, "fixed packed prices", 0);
    let units = fixed_units(&mut words).into_iter();
    let mut all: Vec<Packed> = units.flat_map(|units| [packed(units, false), packed(units, true)]).collect();
    for base in BASES {
        let base = base.to_be_bytes();
        for place in 0..=DIGITS {
            let changed = (0..16).map(|half_byte| with_half_byte(base, place, half_byte));
            // And each under all signs.
            all.extend(changed.flat_map(|changed| (0..16).map(move |sign| with_half_byte(changed, DIGITS, sign))));
        }
        for place in 0..8 {
            all.extend((0..=255).map(|byte| {
                let mut changed = base;
                changed[place] = byte;
                changed
            }));
        }
    }
    let words = all.into_iter().map(u64::from_be_bytes).collect();
    sorted(words, |word| word >> 4).into_iter().map(u64::to_be_bytes).collect()
}

/// Of every length, the last digits zeros in one of four.
fn accepted(words: &mut Words) -> Packed {
    let digits = words.below(DIGITS as u64 + 1) as u32;
    let zeros = if words.below(4) == 0 { words.below(u64::from(digits) + 1) as u32 } else { 0 };
    let units = of_digits(words, digits - zeros) * 10_u64.pow(zeros);
    packed(units, words.below(2) == 0)
}

fn damaged(words: &mut Words, packed: Packed) -> Packed {
    let place = words.below(DIGITS as u64 + 1) as usize;
    with_half_byte(packed, place, words.below(16))
}

/// Accepted ones mostly; one or two half-bytes changed, the sign changed, or any bytes.
pub fn any_packed(words: &mut Words) -> Packed {
    let packed = accepted(words);
    match words.below(16) {
        0 | 1 => damaged(words, packed),
        2 => {
            let once = damaged(words, packed);
            damaged(words, once)
        }
        3 => with_half_byte(packed, DIGITS, words.below(16)),
        4 => words.any().to_be_bytes(),
        _ => packed,
    }
}

// ---- floats

/// Ties that are floats: odd multiples of 1/32. The first ones, and some between any two powers of two, to which the even
/// number is below and above.
fn ties(words: &mut Words) -> Vec<u64> {
    let mut odd: Vec<u64> = (0..1000).map(|k| 2 * k + 1).collect();
    for place in 1..42 {
        let power = 1_u64 << place;
        let random = [words.below(power), words.below(power)].map(|more| (power + more) | 1);
        odd.extend(random.into_iter().chain([power + 1, 2 * power - 1]).flat_map(|number| [number, number ^ 2]));
    }
    odd
}

/// Numbers of halves of a unit: the first ones, those about powers of ten and the most, about ties, and of each length some.
fn fixed_halves(words: &mut Words) -> Vec<u64> {
    let mut all: Vec<u64> = (0..=4000).collect();
    for digits in 0..=DIGITS as u32 {
        let power = 2 * 10_u64.pow(digits);
        all.extend(power.saturating_sub(5)..=power + 5);
        all.extend((0..20).map(|_| 2 * of_digits(words, digits) + words.below(2)));
    }
    // A tie has 625 halves for each odd number.
    for number in ties(words) {
        all.extend((625 * number).saturating_sub(4)..=625 * number + 4);
    }
    all
}

/// All powers of two, some subnormals and large ones, with those beside them.
fn powers(words: &mut Words) -> Vec<u64> {
    let subnormals = (0..52).map(|place| 1 << place);
    let normals = (1..2047).map(|field| float(0, field, 0));
    let random: Vec<u64> = (0..200).map(|_| words.any() >> 12 >> words.below(52)).collect();
    let others = [1e11, 1e12, 1e15, 1e19, 1e22, 1e100, 2e-5, 1e-5, 1e-4, 5e-5].map(f64::to_bits);
    let all = subnormals.chain(normals).chain(random).chain(others);
    all.flat_map(|size| (-2..=2).map(move |steps| neighbour(size, steps))).collect()
}

/// Each digit of a payload by itself, and any ones, quiet and signalling.
fn nans(words: &mut Words) -> Vec<u64> {
    let single = (0..52).map(|place| 1 << place);
    let random: Vec<u64> = (0..100).map(|_| (words.any() >> 12).max(1)).collect();
    single.chain(random).map(|payload| float(0, 2047, payload)).chain(NANS).collect()
}

/// Of both signs, by their sizes.
pub fn fixed_floats() -> Vec<u64> {
    let mut words = Words::new(1, "fixed packed floats", 0);
    let halves = fixed_halves(&mut words).into_iter().map(of_halves);
    let halves = halves.flat_map(|size| (-3..=3).map(move |steps| neighbour(size, steps))).collect();
    let border = (-16..=16).map(|steps| neighbour(GREATEST, steps)).collect();
    let sizes: Vec<Vec<u64>> = vec![halves, border, powers(&mut words), nans(&mut words), edges(&POINTS, 3)];
    let all = sizes.concat().into_iter().flat_map(|x| [x, x ^ SIGN]).collect();
    sorted(all, |x| x & !SIGN)
}

fn near(words: &mut Words, x: u64) -> u64 {
    let steps = 1 << words.below(4);
    neighbour(x, words.between(-steps, steps))
}

/// Any bits; any size below 10^11 and a little more; near a number of units and near one and a half; near a tie, and near the
/// border. Of both signs.
pub fn any_float(words: &mut Words) -> u64 {
    let sign = words.any() & SIGN;
    let digits = words.below(DIGITS as u64 + 1) as u32;
    let size = match words.below(16) {
        0 | 1 => words.any(),
        2..=5 => between_powers(words, -20, 36).to_bits(),
        6..=8 => {
            let units = of_digits(words, digits);
            near(words, (units as f64 / UNITS as f64).to_bits())
        }
        9..=12 => {
            let halves = 2 * of_digits(words, digits) + 1;
            near(words, (halves as f64 / (2 * UNITS) as f64).to_bits())
        }
        13 | 14 => {
            let number = words.any() >> words.between(22, 63) | 1;
            let steps = words.between(-2, 2);
            neighbour((number as f64 / 32.0).to_bits(), steps)
        }
        _ => {
            let spread = 1_i64 << words.below(40);
            neighbour(GREATEST, words.between(-spread, spread))
        }
    };
    size & !SIGN | sign
}

#[cfg(test)]
mod tests {
    use super::*;
    use crate::packed::{units_of, Fraction};
    use std::cmp::Ordering;

    /// No price lies in the middle of two floats, and none nearer to it than those that are asked for; none is rounded to a
    /// power of two from below.
    #[test]
    fn no_price_is_a_tie() {
        let mut words = Words::new(1, "middles", 0);
        for units in fixed_units(&mut words).into_iter().filter(|units| *units > 0) {
            let (fraction, _) = significand(units);
            let rest = fraction.rest();
            assert!(!(4993..5008).contains(&rest), "{units}: {rest}");
            assert!(fraction.nearest() < 1 << 53, "{units}");
        }
    }

    #[test]
    fn ties_are_ties() {
        let is_tie = |fraction: Fraction| fraction.beside_half() == Ordering::Equal;
        for number in ties(&mut Words::new(1, "ties", 0)) {
            assert!(is_tie(units_of(of_halves(625 * number)).unwrap()), "{number}");
        }
    }

    #[test]
    fn half_bytes_have_their_places() {
        assert_eq!(with_half_byte([0xFF; 8], 0, 1)[0], 0x1F);
        assert_eq!(with_half_byte([0; 8], 1, 2)[0], 2);
        assert_eq!(with_half_byte([0; 8], DIGITS, 0xD)[7], 0xD);
    }
}
