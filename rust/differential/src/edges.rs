//! Edge values: what is compared in all combinations, and what random inputs are drawn near.

use std::f64::consts::{FRAC_1_SQRT_2, LN_2, SQRT_2};

/// Thresholds of document 01 and of Cody's functions, and where floats change their step or their kind.
pub const POINTS: [f64; 59] = [
    0.0,
    f64::MIN_POSITIVE,
    2.0 * f64::MIN_POSITIVE,
    2.004168360008973e-292,  // 2^-969
    1.4916681462400413e-154, // √ of the least normal number
    5.551115123125783e-17,   // 2^-54
    1.1102230246251565e-16,  // 2^-53
    2.220446049250313e-16,   // 2^-52
    1.4901161193847656e-8,   // 2^-26
    1.0 / 23.0,
    0.0625,
    0.125,
    0.2197265625, // 0.46875²
    0.25,
    1.0 / 3.0,
    0.46875,
    0.5,
    LN_2,
    0.6629126073623883, // 0.46875 √2
    FRAC_1_SQRT_2,
    0.75,
    1.0,
    1.3333333333333333,
    SQRT_2,
    1.5,
    2.0,
    2.5,
    3.0,
    3.5,
    4.0,
    5.0,
    5.656854249492381, // 4 √2
    7.0,
    8.0,
    10.0,
    16.0,
    26.543,
    26.6287357137514,
    27.0,
    32.0,
    37.53747058606906, // 26.543 √2
    37.65871919523603, // 26.6287357137514 √2
    39.0,
    63.9375,
    100.0,
    708.3964185322641,
    709.782712893384,
    744.4400719213812,
    745.1332191019412,
    746.0,
    1e8,
    4503599627370495.5,          // 2^52 less a half
    4503599627370496.0,          // 2^52
    9007199254740992.0,          // 2^53
    9223372036854775808.0,       // 2^63
    1.340_780_792_994_259_6e154, // √ of the largest
    9.9792015476736e291,         // 2^970, half a unit of the largest
    8.98846567431158e307,        // 2^1023
    f64::MAX,
];

/// Where the prices change: their thresholds, and where an exponential ends.
pub const PRICE_POINTS: [f64; 32] = [
    0.0,
    f64::MIN_POSITIVE,
    1e-300,
    1.4916681462400413e-154, // √ of the least normal number
    2.220446049250313e-16,   // f64::EPSILON
    1.4901161193847656e-8,
    0.011962890625, // the intrinsic value's threshold for x²
    0.109375,       // its root
    0.21132486540518713,
    0.42264973081037427, // twice that
    0.46875,
    0.5,
    0.6629126073623883, // 0.46875 √2
    1.0,
    2.0,
    3.0,
    5.656854249492381, // 4 √2
    9.788675134594813, // 10 less 0.21132486540518713
    10.0,
    11.0,
    26.6287357137514,
    37.65871919523603, // 26.6287357137514 √2
    38.62641583165593, // √(2 × 746)
    100.0,
    709.782712893384,
    1419.565425786768, // twice that
    1492.0,
    1e8,
    4.056481920730334e31,        // 2 / EPSILON²
    1.340_780_792_994_259_6e154, // √ of the largest
    1e300,
    f64::MAX,
];

/// Quiet and signalling NaNs of both signs.
pub const NANS: [u64; 8] = [
    0x7FF8_0000_0000_0000,
    0xFFF8_0000_0000_0000,
    0x7FF0_0000_0000_0001,
    0xFFF0_0000_0000_0001,
    0x7FF7_FFFF_FFFF_FFFF,
    0xFFF4_0000_0000_0000,
    0x7FFF_FFFF_FFFF_FFFF,
    0xFFFF_FFFF_FFFF_FFFF,
];

pub const SIGN: u64 = 1 << 63;
pub const INFINITY: u64 = 0x7FF0_0000_0000_0000;

/// The bits that are `steps` units away, among those of one sign; no farther than zero and infinity.
pub fn neighbour(bits: u64, steps: i64) -> u64 {
    let size = (bits & !SIGN) as i64;
    bits & SIGN | (size + steps).clamp(0, INFINITY as i64) as u64
}

/// The points with their neighbours by up to `steps` units, of both signs, with the infinities and NaNs.
pub fn edges(points: &[f64], steps: i64) -> Vec<u64> {
    let mut sizes: Vec<u64> = points.iter().flat_map(|x| (-steps..=steps).map(|k| neighbour(x.to_bits(), k))).collect();
    sizes.push(INFINITY);
    with_signs(sizes)
}

/// The multiples of 1/16 to 64 and their neighbours: where the smoothened exponentials and floor take their next value.
pub fn sixteenths() -> Vec<u64> {
    let multiples = (0..1024).map(|k| f64::from(k) / 16.0);
    let sizes = multiples.flat_map(|x| (-1..=1).map(move |k| neighbour(x.to_bits(), k))).collect();
    with_signs(sizes)
}

fn with_signs(mut sizes: Vec<u64>) -> Vec<u64> {
    sizes.sort_unstable();
    sizes.dedup();
    let negative: Vec<u64> = sizes.iter().map(|x| x | SIGN).collect();
    sizes.into_iter().chain(negative).chain(NANS).collect()
}
