//! The samples of packed prices: reading, number 45, with the 8 bytes as a word whose first byte is the uppermost, and writing,
//! number 46, with the float and the 8 bytes before, which answers the 8 bytes after. Answers are document 02's.

use crate::{
    edges::{neighbour, INFINITY, NANS, SIGN},
    inputs::wide,
    packed::{price_in, price_of},
    packed_inputs::{any_float, any_packed, near_middles, packed, GREATEST},
    samples::line,
};
use random_words::Words;

const READ: usize = 45;
const WRITE: usize = 46;

fn write_reading(word: u64) {
    let price = price_in(word.to_be_bytes());
    line(READ, wide([word]), price.map_or((0, 36), |price| (price.float(), 0)));
}

/// Over bytes that differ from line to line.
fn write_writing(words: &mut Words, x: u64) {
    let before = words.any();
    let after = price_of(x).map_or((before, 37), |price| (u64::from_be_bytes(price.packed()), 0));
    line(WRITE, wide([x, before]), after);
}

fn readings(words: &mut Words) {
    let accepted = [0xC, 0x1C, 0x1D, 0x3C, 0x1_0000C, 0x12_345D, 0x1000_0000_0000_000C, 0x1234_5678_9012_345D];
    let greatest = [0x9999_9999_9999_999C, 0x9999_9999_9999_999D];
    accepted.into_iter().chain(greatest).for_each(write_reading);
    for units in [1, 1_000_000, 100_000_000_000_000].into_iter().flat_map(near_middles) {
        write_reading(u64::from_be_bytes(packed(units, units % 2 == 1)));
    }
    // Zero with D, digits above 9 in the first place, amidst and in the last one, other signs, and all at once.
    let digits = [0xA000_0000_0000_000C, 0x0000_00F0_0000_000D, 0x1234_567B_9012_345C, 0xAC, 0xFD];
    let signs = [0x10, 0x19, 0x1A, 0x1B, 0x1E, 0x1F, 0, 0xB, 0xE, 0xF];
    [0xD].into_iter().chain(digits).chain(signs).chain([u64::MAX]).for_each(write_reading);
    (0..3).for_each(|_| write_reading(u64::from_be_bytes(any_packed(words))));
}

fn writings(words: &mut Words) {
    // Both zeros, what is rounded to zero, and what just isn't; 0.00015 is below one and a half units, its rounded product not.
    let half = 0.00005_f64.to_bits();
    let small = [0, SIGN, (-0.00001_f64).to_bits(), 1, SIGN | 1, 0.00015_f64.to_bits(), 0.0001_f64.to_bits()];
    let halves = (-1..=1).flat_map(|steps| [neighbour(half, steps), neighbour(half, steps) | SIGN]);
    // Ties to either side, and the floats beside them: 312.5 units, 937.5, and as many as there are below 10^11.
    let ties = [0.03125, -0.09375, 99_999_999_999.90625];
    let ties = ties.into_iter().flat_map(|tie: f64| (-1..=1).map(move |steps| neighbour(tie.to_bits(), steps)));
    let plain = [1.0, -1.0, 1234.5678, 0.99995, 123.45675].map(f64::to_bits);
    let border = [GREATEST, GREATEST + 1].into_iter().flat_map(|x| [x, x | SIGN]);
    let refused = [1e11, -1e11, f64::MAX, 18_446_744_073_709_551_616.0].map(f64::to_bits);
    let others = [INFINITY, INFINITY | SIGN, NANS[0], NANS[3], NANS[6]];
    let fixed = small.into_iter().chain(halves).chain(ties).chain(plain).chain(border).chain(refused).chain(others);
    fixed.for_each(|x| write_writing(words, x));
    for _ in 0..6 {
        let x = any_float(words);
        write_writing(words, x);
    }
}

pub fn write(seed: u64) {
    let mut words = Words::new(seed, "packed prices", 0);
    readings(&mut words);
    writings(&mut words);
}
