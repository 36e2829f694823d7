//! Random inputs: mixtures of any bits, of the range in which a function does its work, and of what lies near the places
//! where it changes.

use crate::edges::{neighbour, POINTS, SIGN};
use gintubalos::probe::standard_normal_cdf;
use random_words::Words;
use std::f64::consts::{LN_2, SQRT_2};

/// As many as any function has; the places that a function doesn't have are 0. A float is its bits.
pub type Arguments = [u64; 9];

const FRACTION: u64 = (1 << 52) - 1;

pub fn wide<const N: usize>(short: [u64; N]) -> Arguments {
    let mut all = [0; 9];
    all[..N].copy_from_slice(&short);
    all
}

/// The float with this sign, biased exponent and fraction.
pub fn float(sign: u64, exponent: u64, fraction: u64) -> u64 {
    (sign & SIGN) | exponent << 52 | (fraction & FRACTION)
}

/// 2^n as a float, for an n from −1022 to 1023.
pub fn power(n: i64) -> f64 {
    f64::from_bits(((n + 1023) as u64) << 52)
}

pub fn near(words: &mut Words, x: f64) -> u64 {
    let spread = 1_i64 << words.below(24);
    let steps = words.between(-spread, spread);
    neighbour(x.to_bits(), steps)
}

pub fn near_a_point(words: &mut Words) -> u64 {
    let x = words.choice(&POINTS);
    near(words, x) | (words.any() & SIGN)
}

/// Any sign and exponent with a fraction near 0, near √2's and near the top.
pub fn near_a_step(words: &mut Words) -> u64 {
    let fraction = words.choice(&[0, SQRT_2.to_bits() & FRACTION, FRACTION]);
    let exponent = words.below(2047);
    let steps = words.between(-4, 4);
    neighbour(float(0, exponent, fraction), steps) | (words.any() & SIGN)
}

/// For a function of one float that does its work from low to high.
pub fn line(words: &mut Words, low: f64, high: f64) -> u64 {
    match words.below(8) {
        0 | 1 => words.any(),
        2 => words.uniform(low, high).to_bits(),
        3 => {
            // Every power of two up to the range's end has the same part.
            let most = (low.abs().max(high.abs()).to_bits() >> 52) as i64;
            let exponent = most - words.between(0, 60);
            let negative = low < 0.0 && (high <= 0.0 || words.below(2) == 1);
            float(if negative { SIGN } else { 0 }, exponent as u64, words.any())
        }
        4 => near_a_point(words),
        5 => {
            let sixteenth = (16.0 * words.uniform(low, high)).floor() / 16.0;
            let steps = words.between(-2, 2);
            neighbour(sixteenth.to_bits(), steps)
        }
        6 => near_a_step(words),
        _ => {
            let exponent = words.below(120) + 1023 - 60;
            let sign = words.any();
            float(sign, exponent, words.any())
        }
    }
}

/// exp also near the half multiples of ln 2, where k takes its next value.
pub fn exponent(words: &mut Words) -> u64 {
    if words.below(4) == 0 {
        let halves = words.between(-2155, 2050) as f64;
        return near(words, 0.5 * halves * LN_2);
    }
    line(words, -750.0, 715.0)
}

/// Above 0, mostly: any exponent, subnormals with every count of leading zeros, and 1's neighbourhood.
pub fn positive(words: &mut Words) -> u64 {
    match words.below(6) {
        0 => words.any(),
        1 => words.any() & !SIGN,
        2 => near_a_step(words) & !SIGN,
        3 => (words.any() >> 12) >> words.below(52),
        4 => near(words, 1.0),
        _ => near_a_point(words),
    }
}

/// Squares and their neighbours: of 53 digits, where the root is near a float, and of 54, where it is near a middle.
pub fn square(words: &mut Words) -> u64 {
    if words.below(2) == 0 {
        return positive(words);
    }
    let digits = 20 + words.below(35);
    let root = u128::from(words.any() >> (64 - digits) | 1);
    let square = root * root;
    let size = (square as f64).to_bits();
    let exponent = 2 * words.between(-500, 450);
    let steps = words.between(-2, 2);
    let scaled = f64::from_bits(neighbour(size, steps)) * power(exponent);
    scaled.to_bits()
}

/// Near whole numbers of every size.
pub fn whole(words: &mut Words) -> u64 {
    if words.below(2) == 0 {
        return line(words, -20.0, 20.0);
    }
    let size = (words.any() >> words.below(64)) as f64;
    let half = if words.below(2) == 0 { 0.5 } else { 0.0 };
    let steps = words.between(-2, 2);
    neighbour((size + half).to_bits(), steps) | (words.any() & SIGN)
}

/// Probabilities: log-uniform down to the least subnormal, near 1, and values of the cdf with their neighbours.
pub fn probability(words: &mut Words) -> u64 {
    match words.below(16) {
        0 => words.any(),
        1 => near_a_point(words),
        2..=5 => {
            let fraction = words.any();
            let exponent = words.below(1023);
            let subnormal = (fraction >> 12) >> words.below(52);
            if exponent == 0 {
                subnormal
            } else {
                float(0, exponent, fraction)
            }
        }
        6 | 7 => words.unit().to_bits(),
        8 | 9 => {
            let exponent = 1022 - words.below(54);
            (1.0 - f64::from_bits(float(0, exponent, words.any()))).to_bits()
        }
        10 => (words.any() >> 12) >> words.below(52),
        _ => {
            let x = words.uniform(-38.6, 8.4);
            let steps = words.between(-3, 3);
            neighbour(standard_normal_cdf(x).to_bits(), steps)
        }
    }
}

/// For max: any two, equal ones, neighbours, and one near a point.
pub fn pair(words: &mut Words) -> [u64; 2] {
    let a = if words.below(2) == 0 { words.any() } else { near_a_point(words) };
    let b = match words.below(4) {
        0 => a,
        1 => a ^ SIGN,
        2 => neighbour(a, words.between(-2, 2)),
        _ => words.any(),
    };
    [a, b]
}

/// For mul_add, which has one rounding: what tells one from two.
pub fn fused(words: &mut Words) -> [u64; 3] {
    match words.below(10) {
        0 => [words.any(), words.any(), words.any()],
        1 => [near_a_point(words), near_a_point(words), near_a_point(words)],
        2 => cancel(words),
        3 => tie_of_product(words),
        4 => tie_of_addend(words),
        5 => subnormal_result(words),
        6 => subnormal_tie(words),
        7 => overflow(words),
        8 => apart(words, 8),
        _ => apart(words, 140),
    }
}

/// A float with a random fraction and sign, and an exponent from 2^low to 2^high.
pub fn between_powers(words: &mut Words, low: i64, high: i64) -> f64 {
    let exponent = (words.between(low, high) + 1023) as u64;
    let sign = words.any();
    // Short fractions, too: their products are exact.
    let zeros = if words.below(2) == 0 { words.below(53) } else { 0 };
    f64::from_bits(float(sign, exponent, words.any() >> zeros << zeros))
}

/// c is −(a × b), rounded, or a neighbour: what is left is the product's low half.
fn cancel(words: &mut Words) -> [u64; 3] {
    let a = between_powers(words, -500, 500);
    let b = between_powers(words, -521, 500);
    let c = (-(a * b)).to_bits();
    let steps = words.between(-3, 3);
    [a.to_bits(), b.to_bits(), neighbour(c, steps)]
}

/// The product has 54 digits or a few more, the last ones a half: c, far below, decides, or is 0.
fn tie_of_product(words: &mut Words) -> [u64; 3] {
    let first = 1 + words.below(53);
    let a = (words.any() >> (64 - first) | 1) as f64;
    let b = (words.any() >> (64 - (54 - first).max(1)) | 1) as f64;
    let shift = words.between(-400, 400);
    let c = match words.below(3) {
        0 => 0.0,
        1 => between_powers(words, -600, -500),
        // Another half, or what makes the half a whole.
        _ => words.choice(&[0.5, 1.0, 1.5, 2.0, -0.5, -1.0, -2.0]) * power(shift),
    };
    [(a * power(shift)).to_bits() | (words.any() & SIGN), b.to_bits(), c.to_bits() | (words.any() & SIGN)]
}

/// The product is an odd number of half units of c, or its neighbour.
fn tie_of_addend(words: &mut Words) -> [u64; 3] {
    let c = between_powers(words, -400, 400);
    let unit = (c.to_bits() >> 52 & 2047) as i64 - 1023 - 52;
    let split = words.between(-200, 200);
    let odd = (2 * words.below(8) + 1) as f64;
    let a = odd * power(split) * words.choice(&[1.0, -1.0]);
    let b = power(unit - 1 - split);
    let steps = words.between(-1, 1);
    [neighbour(a.to_bits(), steps), b.to_bits(), c.to_bits()]
}

/// A product around the least numbers, and an addend there, too.
fn subnormal_result(words: &mut Words) -> [u64; 3] {
    let a = between_powers(words, -600, -400);
    let exponent = (a.to_bits() >> 52 & 2047) as i64 - 1023;
    let target = words.between(-1130, -1000);
    let b = between_powers(words, target - exponent, target - exponent + 2);
    let c = match words.below(4) {
        0 => 0,
        1 => (words.any() >> 12) >> words.below(52),
        2 => neighbour((-(a * b)).to_bits(), words.between(-3, 3)),
        _ => words.any() >> 10,
    };
    [a.to_bits(), b.to_bits(), c ^ (words.any() & SIGN)]
}

/// An odd number of halves of the least number, with c subnormal: a tie, or just beside it.
fn subnormal_tie(words: &mut Words) -> [u64; 3] {
    let digits = 1 + words.below(53);
    let odd = (words.any() >> (64 - digits) | 1) as f64;
    let a = odd * power(-600);
    let steps = words.between(-1, 1);
    let b = power(-475);
    let c = if words.below(4) == 0 { 0 } else { (words.any() >> 12) >> words.below(52) };
    [neighbour(a.to_bits(), steps) | (words.any() & SIGN), b.to_bits(), c | (words.any() & SIGN)]
}

/// A product around 2^1024 and an addend that brings it back, or not: the largest number's last half unit is 2^970.
fn overflow(words: &mut Words) -> [u64; 3] {
    let a = between_powers(words, 400, 600);
    let exponent = (a.to_bits() >> 52 & 2047) as i64 - 1023;
    if words.below(2) == 0 {
        let target = words.between(1021, 1024);
        let b = between_powers(words, target - exponent, target - exponent);
        // Mostly of the other sign than the product.
        let c = if words.below(4) == 0 {
            between_powers(words, 960, 1023)
        } else {
            between_powers(words, 1022, 1023).copysign(-a * b.signum())
        };
        return [a.to_bits(), b.to_bits(), c.to_bits()];
    }
    // Largest plus about half a unit.
    let few = words.choice(&[1.0, 0.5, 0.75, 2.0, 1.5]);
    let b = few * power(970 - exponent);
    let steps = words.between(-2, 2);
    let first = neighbour(power(exponent).to_bits(), steps);
    let steps = words.between(-2, 0);
    [first, b.to_bits(), neighbour(f64::MAX.to_bits(), steps) | (words.any() & SIGN)]
}

/// The addend's exponent is up to `most` away from the product's.
fn apart(words: &mut Words, most: i64) -> [u64; 3] {
    let a = between_powers(words, -300, 300);
    let b = between_powers(words, -300, 300);
    let exponent = ((a * b).to_bits() >> 52 & 2047) as i64 - 1023;
    let distance = words.between(-most, most);
    let c = between_powers(words, exponent + distance, exponent + distance);
    [a.to_bits(), b.to_bits(), c.to_bits()]
}

#[cfg(test)]
mod tests {
    use super::*;

    /// How many of 100 000 inputs for mul_add have the property.
    fn count(property: impl Fn(f64, f64, f64) -> bool) -> u32 {
        let mut words = Words::new(1, "mul_add", 0);
        (0..100_000).map(|_| fused(&mut words).map(f64::from_bits)).filter(|&[a, b, c]| property(a, b, c)).count()
            as u32
    }

    /// The inputs tell one rounding from two, and reach every kind of result.
    #[test]
    fn fused_inputs_reach_every_kind() {
        let twice = |a: f64, b: f64, c: f64| a * b + c;
        assert!(count(|a, b, c| a.mul_add(b, c).to_bits() != twice(a, b, c).to_bits()) > 10_000);
        assert!(count(|a, b, c| a.mul_add(b, c).is_subnormal()) > 10_000);
        assert!(
            count(|a, b, c| a.is_finite() && b.is_finite() && c.is_finite() && a.mul_add(b, c).is_infinite()) > 2_000
        );
        assert!(
            count(|a, b, c| (a * b).is_infinite() && a.is_finite() && b.is_finite() && a.mul_add(b, c).is_finite())
                > 200
        );
        assert!(count(|a, b, c| c != 0.0 && a * b != 0.0 && a.mul_add(b, c) == 0.0) > 200);
    }

    /// Probabilities lie between 0 and 1, but for the few that are to be refused.
    #[test]
    fn probabilities() {
        let mut words = Words::new(1, "inverse_normal_cdf", 0);
        let inside = (0..10_000).map(|_| f64::from_bits(probability(&mut words))).filter(|p| *p > 0.0 && *p < 1.0);
        assert!(inside.count() > 8_500);
    }

    #[test]
    fn moving_stops_at_zero_and_infinity() {
        assert_eq!(neighbour(1, -3), 0);
        assert_eq!(neighbour(SIGN | 1, -3), SIGN);
        assert_eq!(f64::from_bits(neighbour(f64::MAX.to_bits(), 9)), f64::INFINITY);
    }
}
