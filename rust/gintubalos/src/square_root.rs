//! The square root, and how its binary digits are found.

use crate::{bits, environment::in_default};

/// The turns of a square root, one for each binary digit of a float.
pub const SQRT_TURNS: u32 = 53;

/// A positive finite x as [`sqrt_aligned`] takes it apart: x = `significand` / 2^52 × 2^`exponent`.
#[derive(Clone, Copy, Debug, PartialEq, Eq, Hash)]
pub struct Aligned {
    /// The aligned significand, which is from 1 up and below 4, times 2^52.
    pub significand: u64,
    /// Even, so that half of it is the root's: from −1074 to 1022.
    pub exponent: i32,
}

/// The square root, rounded to nearest with ties to even, as IEEE 754's squareRoot. A zero stays itself; it is NaN for a NaN
/// and what is below 0, infinity for infinity.
///
/// ```
/// use gintubalos::sqrt;
///
/// assert_eq!(sqrt(2.25), 1.5);
/// assert_eq!(sqrt(-0.0).to_bits(), (-0.0f64).to_bits());
/// assert!(sqrt(-1.0).is_nan());
/// ```
#[inline]
pub fn sqrt(x: f64) -> f64 {
    f64::from_bits(in_default(move || bits::sqrt(x.to_bits())))
}

/// The binary digits that are found after so many turns, as a whole number: one digit per turn, from the top, of the root of
/// x's aligned significand. That root is from 1 up and below 2, so the first digit is 1. The digits followed by zeros are
/// the greatest such number whose square isn't above the significand. Past the last turn, [`SQRT_TURNS`], they are the last
/// one's; 0 for turns 0 and for an x that is not positive and finite.
///
/// ```
/// use gintubalos::sqrt_digits;
///
/// // 1.0110 in binary is 1.375, and its square not above 2, but that of 1.0111 is.
/// assert_eq!(sqrt_digits(2.0, 5), 0b10110);
/// assert_eq!(sqrt_digits(2.0, 6), 0b101101);
/// assert_eq!(sqrt_digits(-2.0, 6), 0);
/// ```
#[inline]
pub fn sqrt_digits(x: f64, turns: u32) -> u64 {
    in_default(move || bits::sqrt_digits(x.to_bits(), turns))
}

/// The significand and the exponent that a root begins with; none for an x that is not positive and finite.
///
/// ```
/// use gintubalos::{sqrt_aligned, Aligned};
///
/// // 8 is 2 × 2^2: an exponent of 3 would have no half.
/// assert_eq!(sqrt_aligned(8.0), Some(Aligned { significand: 2 << 52, exponent: 2 }));
/// assert_eq!(sqrt_aligned(0.0), None);
/// ```
#[inline]
pub fn sqrt_aligned(x: f64) -> Option<Aligned> {
    match in_default(move || bits::sqrt_aligned(x.to_bits())) {
        (0, _) => None,
        (significand, exponent) => Some(Aligned { significand, exponent }),
    }
}
