//! Document 02's fifth request, packed decimal prices, written from its text: the bytes as the text of their hexadecimal
//! digits, and either rounding as the nearest whole number of a fraction of whole numbers.

use crate::{
    digits::ONE,
    edges::{INFINITY, SIGN},
};
use std::cmp::Ordering;

/// "8 bytes".
pub type Packed = [u8; 8];

/// "15 decimal digits".
pub const DIGITS: usize = 15;
pub const MOST: u64 = 999_999_999_999_999;

/// "The unit is one ten-thousandth."
pub const UNITS: u64 = 10_000;

/// A number of units, and a sign where it isn't zero.
#[derive(Clone, Copy, Debug, PartialEq, Eq)]
pub struct Price {
    pub units: u64,
    pub is_negative: bool,
}

/// "Two per byte, most significant first": so they are the digits of the hexadecimal number, and its last one the sign.
pub fn text_of(packed: Packed) -> String {
    format!("{:016X}", u64::from_be_bytes(packed))
}

/// "36, a digit above 9, another sign, or zero with D."
pub fn price_in(packed: Packed) -> Option<Price> {
    let text = text_of(packed);
    let (digits, sign) = text.split_at(DIGITS);
    match (digits.parse().ok()?, sign) {
        (units, "C") => Some(Price { units, is_negative: false }),
        (units @ 1.., "D") => Some(Price { units, is_negative: true }),
        _ => None,
    }
}

/// "Writing gives the nearest ten-thousandth, ties to even"; none where 37 is answered: "a float that is not finite or after
/// rounding needs more than 15 digits".
pub fn price_of(x: u64) -> Option<Price> {
    let units = units_of(x)?.nearest();
    // "Whatever rounds to zero is written as zero with C."
    (units <= MOST.into()).then_some(Price { units: units as u64, is_negative: units != 0 && x & SIGN != 0 })
}

impl Price {
    pub fn packed(self) -> Packed {
        let sign = if self.is_negative { 'D' } else { 'C' };
        let text = format!("{:015}{sign}", self.units);
        u64::from_str_radix(&text, 16).expect("16 digits").to_be_bytes()
    }

    /// "Reading gives the nearest f64, ties to even."
    pub fn float(self) -> u64 {
        let size = if self.units == 0 { 0 } else { float_of(significand(self.units)) };
        if self.is_negative {
            size | SIGN
        } else {
            size
        }
    }
}

// ---- fractions

#[derive(Clone, Copy)]
pub struct Fraction {
    pub numerator: u128,
    pub denominator: u128,
}

impl Fraction {
    pub fn whole(self) -> u128 {
        self.numerator / self.denominator
    }

    /// What the whole part leaves.
    pub fn rest(self) -> u128 {
        self.numerator % self.denominator
    }

    /// The rest beside a half.
    pub fn beside_half(self) -> Ordering {
        (2 * self.rest()).cmp(&self.denominator)
    }

    /// "The nearest .., ties to even."
    pub fn nearest(self) -> u128 {
        let whole = self.whole();
        match self.beside_half() {
            Ordering::Less => whole,
            Ordering::Equal => whole + whole % 2,
            Ordering::Greater => whole + 1,
        }
    }

    /// Whether n is that, by its distance alone.
    pub fn is_nearest(self, n: u128) -> bool {
        let distance = 2 * self.numerator.abs_diff(n * self.denominator);
        distance < self.denominator || distance == self.denominator && n % 2 == 0
    }
}

/// The significand of the price, of 53 digits before it is rounded, and the exponent of its last place. The price isn't zero.
pub fn significand(units: u64) -> (Fraction, i32) {
    let (mut numerator, mut exponent) = (u128::from(units), 0);
    while numerator < u128::from(UNITS) * u128::from(ONE) {
        numerator *= 2;
        exponent -= 1;
    }
    (Fraction { numerator, denominator: UNITS.into() }, exponent)
}

/// A significand of 2^53, to which one is rounded up, is the next exponent's first one.
fn float_of((significand, exponent): (Fraction, i32)) -> u64 {
    let field = (exponent + 52 + 1023) as u64;
    field * ONE + (significand.nearest() as u64 - ONE)
}

/// A float without its sign, times 10000; none of one that isn't finite.
pub fn units_of(x: u64) -> Option<Fraction> {
    let size = x & !SIGN;
    let (significand, exponent) = match size / ONE {
        _ if size >= INFINITY => return None,
        0 => (size, -1074),
        field => (size % ONE + ONE, field as i32 - 1075),
    };
    let units = u128::from(significand) * u128::from(UNITS);
    // The product is below 2^67: from 2^69 on its part is below a quarter, and times 2^60 it has more than 15 digits.
    Some(if exponent < 0 {
        Fraction { numerator: units, denominator: 1 << exponent.unsigned_abs().min(70) }
    } else {
        Fraction { numerator: units << exponent.min(60), denominator: 1 }
    })
}

/// A float without its sign, times 10000, where that is a float: the machine doesn't round it.
pub fn product(x: u64) -> Option<f64> {
    let size = x & !SIGN;
    let product = f64::from_bits(size) * UNITS as f64;
    let significand = if size < ONE { size } else { size % ONE | ONE };
    let is_float = size == 0 || (significand >> significand.trailing_zeros()) * 625 < 2 * ONE;
    (is_float && product.is_finite()).then_some(product)
}

#[cfg(test)]
mod tests {
    use super::*;
    use crate::packed_inputs::{any_float, any_packed};
    use random_words::Words;

    fn plus(units: u64) -> Price {
        Price { units, is_negative: false }
    }

    fn minus(units: u64) -> Price {
        Price { units, is_negative: true }
    }

    #[test]
    fn known_prices() {
        for (text, price) in [
            (0x0000_0000_0000_000C, plus(0)),
            (0x0000_0000_0000_001C, plus(1)),
            (0x0000_0000_0000_001D, minus(1)),
            (0x1234_5678_9012_345D, minus(123_456_789_012_345)),
            (0x9999_9999_9999_999C, plus(MOST)),
        ] {
            let packed = u64::to_be_bytes(text);
            assert_eq!((price_in(packed), price.packed()), (Some(price), packed));
            assert_eq!(price_of(price.float()), Some(price));
        }
        assert_eq!(plus(12_345).packed(), [0, 0, 0, 0, 0, 0x12, 0x34, 0x5C]);
        assert_eq!(f64::from_bits(minus(12_345).float()), -1.2345);
        let refused = [0xD, 0x1B, 0x1E, 0x1F, 0x10, 0x19, 0xAC, 0xFD, 0xA000_0000_0000_000C, 0xFFFF_FFFF_FFFF_FFFF];
        assert!(refused.into_iter().all(|word| price_in(u64::to_be_bytes(word)).is_none()));
    }

    /// The request's border, halves to the even side, and what is written as zero.
    #[test]
    fn known_floats() {
        let of = |x: f64| price_of(x.to_bits());
        assert_eq!([price_of(0x4237_4876_E7FF_FFFC), price_of(0x4237_4876_E7FF_FFFD)], [Some(plus(MOST)), None]);
        assert_eq!([price_of(0xC237_4876_E7FF_FFFC), price_of(0xC237_4876_E7FF_FFFD)], [Some(minus(MOST)), None]);
        assert_eq!([of(0.03125), of(-0.03125), of(0.09375)], [Some(plus(312)), Some(minus(312)), Some(plus(938))]);
        for x in [0.0, -0.0, 0.00001, -0.00001, 0.00005_f64.next_down(), 5e-324, -5e-324, f64::MIN_POSITIVE] {
            assert_eq!(of(x), Some(plus(0)), "{x}");
        }
        for x in [1e11, -1e11, f64::MAX, f64::MIN, f64::INFINITY, f64::NEG_INFINITY, f64::NAN, -f64::NAN] {
            assert_eq!(of(x), None, "{x}");
        }
    }

    /// Both roundings are std's, of the decimal text, and the machine's where that rounds once.
    #[test]
    fn roundings_are_std_s() {
        let mut words = Words::new(1, "packed", 0);
        let mut count = [0; 3];
        for _ in 0..200_000 {
            let packed = any_packed(&mut words);
            if let Some(price) = price_in(packed) {
                let text = format!("{}.{:04}", price.units / UNITS, price.units % UNITS);
                let size: f64 = text.parse().unwrap();
                assert_eq!(price.float() & !SIGN, size.to_bits(), "{}", text_of(packed));
                assert_eq!(price.packed(), packed);
                assert_eq!(price_of(price.float()), Some(price));
                count[0] += 1;
            }
            let x = any_float(&mut words);
            let Some(fraction) = units_of(x) else { continue };
            let text = format!("{:.4}", f64::from_bits(x & !SIGN)).replace('.', "");
            let units = text.parse().ok().filter(|units| *units <= MOST);
            assert_eq!(price_of(x).map(|price| price.units), units, "{x:016X}");
            if let Some(units) = units {
                let n = u128::from(units);
                assert!(fraction.is_nearest(n) && !fraction.is_nearest(n + 1), "{x:016X}");
                assert!(n == 0 || !fraction.is_nearest(n - 1), "{x:016X}");
                count[1] += 1;
            }
            if let Some(product) = product(x) {
                let units = units.map_or_else(|| product.max(1e15), |units| units as f64);
                assert_eq!(product.round_ties_even(), units.round_ties_even(), "{x:016X}");
                count[2] += 1;
            }
        }
        assert!(count[0] > 80_000 && count[1] > 100_000 && count[2] > 5_000, "{count:?}");
    }

    /// Three fractions about a half, over an even and an odd number.
    #[test]
    fn fractions() {
        let nearest = |numerator| Fraction { numerator, denominator: 10 }.nearest();
        assert_eq!([20, 24, 25, 26, 29, 30, 34, 35, 36].map(nearest), [2, 2, 2, 3, 3, 3, 3, 4, 4]);
    }
}
