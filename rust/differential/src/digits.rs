//! Document 02's fourth request, the square root digit by digit, written from its text in whole numbers.

/// The least aligned significand, 1, in units of 2^-52; all are below four times that.
pub const ONE: u64 = 1 << 52;

/// The digits of a float, "one per turn".
pub const TURNS: u32 = 53;

/// A float as significand × 2^-52 × 2^exponent, with a significand from 1 up and below 4 and an even exponent, so that half
/// of it is the root's.
#[derive(Clone, Copy, Debug, PartialEq, Eq)]
pub struct Aligned {
    pub significand: u64,
    pub exponent: i32,
}

/// "It shall settle the exponent first", of "every positive finite input".
pub fn aligned(x: u64) -> Option<Aligned> {
    let float = f64::from_bits(x);
    if !float.is_finite() || float <= 0.0 {
        return None;
    }
    let (mut significand, mut exponent) = match x / ONE {
        0 => (x, -1022),
        field => (x % ONE + ONE, field as i32 - 1023),
    };
    if exponent % 2 != 0 {
        significand *= 2;
        exponent -= 1;
    }
    while significand < ONE {
        significand *= 4;
        exponent -= 2;
    }
    Some(Aligned { significand, exponent })
}

impl Aligned {
    /// The exponent of x's first digit, odd or even.
    pub fn first_exponent(self) -> i32 {
        self.exponent + i32::from(self.significand >= 2 * ONE)
    }

    /// In units of the square of the last turn's digit.
    pub fn radicand(self) -> u128 {
        u128::from(self.significand) * u128::from(ONE)
    }

    /// "After each turn the digits found": the root of what is left of the radicand without two digits for each turn to
    /// come. No digit more is found after the last turn.
    pub fn digits(self, turns: u32) -> u64 {
        let turns = turns.min(TURNS);
        root(self.radicand() / 4_u128.pow(TURNS - turns), 1 << turns)
    }

    /// Whether these digits, "followed by zeros, are the greatest such number whose square isn't above the aligned
    /// significand".
    pub fn has_digits(self, digits: u64, turns: u32) -> bool {
        let turns = turns.min(TURNS);
        let square = |digits: u64| (u128::from(digits) << (TURNS - turns)).pow(2);
        digits < 1 << turns && square(digits) <= self.radicand() && self.radicand() < square(digits + 1)
    }

    /// Whether these digits of up to 53 turns, followed by zeros, are the root.
    pub fn has_root(self, digits: u64, turns: u32) -> bool {
        (u128::from(digits) << (TURNS - turns)).pow(2) == self.radicand()
    }
}

/// The greatest whole number whose square isn't above n, by Heron's rule from a number above it: each next one is less, and
/// none below the root.
fn root(n: u128, above: u128) -> u64 {
    let mut root = above;
    while root * root > n {
        root = (root + n / root) / 2;
    }
    root as u64
}

#[cfg(test)]
mod tests {
    use super::*;
    use crate::{inputs::power, root_inputs};
    use random_words::Words;

    #[test]
    fn small_roots() {
        for n in 0..10_000_u64 {
            let root = root(n.into(), 128);
            assert!(root * root <= n && n < (root + 1) * (root + 1), "{n}");
        }
    }

    /// √2 is 1.0110101.., √3 1.1011.., and √2.25 1.1.
    #[test]
    fn known_digits() {
        let digits = |x: f64, turns| aligned(x.to_bits()).unwrap().digits(turns);
        assert_eq!([0, 1, 2, 3, 4, 5, 6, 7, 8].map(|turns| digits(2.0, turns)), [0, 1, 2, 5, 11, 22, 45, 90, 181]);
        assert_eq!([1, 2, 3, 4, 5].map(|turns| digits(12.0, turns)), [1, 3, 6, 13, 27]);
        assert_eq!([1, 2, 3, 53, 54, u32::MAX].map(|turns| digits(2.25, turns)), [1, 3, 6, 3 << 51, 3 << 51, 3 << 51]);
    }

    #[test]
    fn known_alignments() {
        let of = |x: f64| aligned(x.to_bits()).map(|aligned| (aligned.significand, aligned.exponent));
        assert_eq!(of(1.0), Some((ONE, 0)));
        assert_eq!(of(2.0), Some((2 * ONE, 0)));
        assert_eq!(of(4.0), Some((ONE, 2)));
        assert_eq!(of(0.5), Some((2 * ONE, -2)));
        assert_eq!(of(f64::MAX), Some((4 * ONE - 2, 1022)));
        assert_eq!(of(f64::from_bits(1)), Some((ONE, -1074)));
        assert_eq!(of(f64::from_bits(2)), Some((2 * ONE, -1074)));
        assert_eq!(of(f64::from_bits(4)), Some((ONE, -1072)));
        let none =
            [0.0, -0.0, -1.0, f64::from_bits(1 << 63 | 1), f64::INFINITY, f64::NEG_INFINITY, f64::NAN, -f64::NAN];
        assert!(none.iter().all(|x| of(*x).is_none()));
    }

    /// The digits' root, rounded, is the machine's, and the digits are what the sentence says.
    #[test]
    fn rounded_roots_are_the_machines() {
        let mut words = Words::new(1, "digits", 0);
        for _ in 0..50_000 {
            let x = root_inputs::random(&mut words);
            let Some(aligned) = aligned(x) else { continue };
            let digits = aligned.digits(TURNS);
            let rest = aligned.radicand() - u128::from(digits).pow(2);
            let rounded = digits + u64::from(rest > digits.into());
            let root = rounded as f64 * power(i64::from(aligned.exponent / 2 - 52));
            assert_eq!(root.to_bits(), f64::from_bits(x).sqrt().to_bits(), "{x:016X}");
            for turns in 0..=TURNS + 1 {
                let digits = aligned.digits(turns);
                assert!(aligned.has_digits(digits, turns), "{x:016X} {turns}");
                assert!(!aligned.has_digits(digits + 1, turns), "{x:016X} {turns}");
                assert!(digits == 0 || !aligned.has_digits(digits - 1, turns), "{x:016X} {turns}");
            }
        }
    }
}
