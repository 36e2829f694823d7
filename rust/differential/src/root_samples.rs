//! The samples of the square root: more of number 7, its digits after some turns, number 43, and its aligned significand and
//! exponent, number 44, by a word of each. Roots are the machine's, digits and alignments document 02's.

use crate::{
    digits::{aligned, ONE},
    edges::{neighbour, INFINITY, NANS, SIGN},
    inputs::wide,
    root_inputs::{near_squares, random, scaled},
    samples::line,
};
use random_words::Words;
use rust_over_rules::elementary::{bits_of, sqrt};

const SQRT: usize = 7;
const DIGITS: usize = 43;
const ALIGNED: usize = 44;

/// A square of 53 digits.
const SQUARE: u64 = ((1 << 26) + 1) * ((1 << 26) + 1);
const MAX: u64 = f64::MAX.to_bits();

fn write_root(x: u64) {
    line(SQRT, wide([x]), (bits_of(sqrt(f64::from_bits(x))), 0));
}

fn write_digits<const N: usize>(x: u64, turns: [u32; N]) {
    for turns in turns {
        let digits = aligned(x).map_or(0, |aligned| aligned.digits(turns));
        line(DIGITS, wide([x, turns.into()]), (digits, 0));
    }
}

/// The significand, and the exponent as 32 bits have it.
fn write_alignment(x: u64) {
    let (significand, exponent) = aligned(x).map_or((0, 0), |aligned| (aligned.significand, aligned.exponent));
    line(ALIGNED, wide([x, 0]), (significand, 0));
    line(ALIGNED, wide([x, 1]), (exponent.cast_unsigned().into(), 0));
}

/// Floats whose roots are as near to a float, 53 digits, or to the middle of two, 54, as there are, on either side.
fn near(digits: u32) -> Vec<u64> {
    let of = |(c, exponent)| near_squares(digits, c, 0).into_iter().take(1).map(move |found| scaled(found, exponent));
    [(1, 0), (-7, 0), (9, -600), (-15, 600)].into_iter().flat_map(of).collect()
}

pub fn write(seed: u64) {
    let float = f64::to_bits;
    let (square, below_4) = (scaled(SQUARE, 0), float(4.0) - 1);
    let mut words = Words::new(seed, "square root", 0);

    [neighbour(square, -1), square, neighbour(square, 1)].into_iter().for_each(write_root);
    [53, 54].into_iter().flat_map(near).for_each(write_root);

    write_digits(float(2.0), [0, 1, 2, 3, 4, 26, 52, 53, 54, u32::MAX]);
    write_digits(float(12.0), [1, 2, 53]);
    write_digits(float(2.25), [1, 2, 3, 53]);
    write_digits(float(1.0), [53]);
    write_digits(float(0.5), [53]);
    write_digits(float(1.0) + 1, [53]);
    write_digits(below_4, [53]);
    write_digits(square, [26, 27, 53]);
    write_digits(neighbour(square, -1), [27, 53]);
    [53, 54].into_iter().flat_map(near).for_each(|x| write_digits(x, [53]));
    write_digits(1, [1, 53]);
    [2, 3, ONE - 1, ONE, MAX].into_iter().for_each(|x| write_digits(x, [53]));
    [0, float(-1.0), INFINITY, NANS[2]].into_iter().for_each(|x| write_digits(x, [53]));
    (1..=4).for_each(|i| write_digits(random(&mut words) & !SIGN, [13 * i]));

    let finite = [float(1.0), float(0.5), below_4, 1, 2, ONE - 1, ONE, MAX];
    finite.into_iter().chain([0, float(-1.0), INFINITY, NANS[0]]).for_each(write_alignment);
}
