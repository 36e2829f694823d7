//! The square root: its values, and each turn's claim in whole numbers.

use gintubalos::{bits, *};

const NAN_BITS: u64 = 0x7FF8_0000_0000_0000;

const LEAST: f64 = f64::from_bits(1);

const LARGEST_SUBNORMAL: f64 = f64::from_bits(0x000F_FFFF_FFFF_FFFF);

/// What has no significand and no digits.
const WITHOUT_DIGITS: [f64; 9] = [
    0.0,
    -0.0,
    -1.0,
    -LEAST,
    f64::MIN,
    f64::NEG_INFINITY,
    f64::INFINITY,
    f64::NAN,
    f64::from_bits(0xFFF0_0000_0000_0001),
];

/// x, its aligned significand times 2^52, its exponent, and its root's bits.
const ROWS: [(f64, u64, i32, u64); 12] = [
    (1.0, 1 << 52, 0, 0x3FF0_0000_0000_0000),
    (2.0, 2 << 52, 0, 0x3FF6_A09E_667F_3BCD),
    (3.0, 3 << 52, 0, 0x3FFB_B67A_E858_4CAA),
    (4.0, 1 << 52, 2, 0x4000_0000_0000_0000),
    (8.0, 2 << 52, 2, 0x4006_A09E_667F_3BCD),
    (0.25, 1 << 52, -2, 0x3FE0_0000_0000_0000),
    (0.5, 2 << 52, -2, 0x3FE6_A09E_667F_3BCD),
    (0.75, 3 << 52, -2, 0x3FEB_B67A_E858_4CAA),
    (LEAST, 1 << 52, -1074, 0x1E60_0000_0000_0000),
    (LARGEST_SUBNORMAL, (4 << 52) - 4, -1024, 0x1FFF_FFFF_FFFF_FFFF),
    (f64::MIN_POSITIVE, 1 << 52, -1022, 0x2000_0000_0000_0000),
    (f64::MAX, (4 << 52) - 2, 1022, 0x5FEF_FFFF_FFFF_FFFF),
];

#[test]
fn values() {
    for (x, significand, exponent, root) in ROWS {
        assert_eq!(sqrt(x).to_bits(), root, "{x:e}");
        assert_eq!(sqrt_aligned(x), Some(Aligned { significand, exponent }), "{x:e}");
    }
    for (x, root) in [
        (0.0, 0),
        (-0.0, 1 << 63),
        (f64::INFINITY, f64::INFINITY.to_bits()),
        (-1.0, NAN_BITS),
        (-LEAST, NAN_BITS),
        (f64::MIN, NAN_BITS),
        (f64::NEG_INFINITY, NAN_BITS),
        (f64::NAN, NAN_BITS),
        (-f64::NAN, NAN_BITS),
        (f64::from_bits(0x7FF0_0000_0000_0001), NAN_BITS),
    ] {
        assert_eq!(sqrt(x).to_bits(), root, "{x:e}");
    }
}

#[test]
fn without_digits() {
    for x in WITHOUT_DIGITS {
        assert_eq!(sqrt_aligned(x), None, "{x:e}");
        assert_eq!(bits::sqrt_aligned(x.to_bits()), (0, 0), "{x:e}");
        for turns in [0, 1, 2, SQRT_TURNS, SQRT_TURNS + 1, u32::MAX] {
            assert_eq!(sqrt_digits(x, turns), 0, "{x:e} {turns}");
        }
    }
}

#[test]
fn first_and_last_turns() {
    let whole = 1u64 << 52;
    for (x, second, last) in [
        (1.0, 0b10, whole),
        (2.0, 0b10, 0x0016_A09E_667F_3BCC),
        (3.0, 0b11, 0x001B_B67A_E858_4CAA),
        (4.0, 0b10, whole),
        (LEAST, 0b10, whole),
        (LARGEST_SUBNORMAL, 0b11, 2 * whole - 2),
        (f64::MIN_POSITIVE, 0b10, whole),
        (f64::MAX, 0b11, 2 * whole - 1),
    ] {
        let digits = [0, 1, 2, 53, 54, u32::MAX].map(|turns| sqrt_digits(x, turns));
        assert_eq!(digits, [0, 1, second, last, last, last], "{x:e}");
    }
}

/// Random bits of positive finite floats, and floats beside those: whole numbers, their squares and powers of 2.
fn numbers() -> Vec<f64> {
    let mut word = 4u64;
    let mut next = || {
        word = word.wrapping_mul(6_364_136_223_846_793_005).wrapping_add(1_442_695_040_888_963_407);
        word ^ word >> 29
    };
    let mut numbers: Vec<f64> = (0..3000).map(|_| f64::from_bits(next() >> 1)).filter(|x| x.is_finite()).collect();
    // Subnormal ones, of any length.
    numbers.extend((12..64).flat_map(|shift| [next(), next()].map(|word| f64::from_bits(word >> shift))));
    let powers = (0..0x7FF).map(|exponent| f64::from_bits(exponent << 52));
    let squares = (0..200).map(|_| next() >> 38).flat_map(|root| [root as f64, (root * root) as f64]);
    let whole = (1..200).map(f64::from);
    numbers.extend(powers.chain(squares).chain(whole).flat_map(|x| [x.next_down(), x, x.next_up()]));
    numbers.retain(|x| 0.0 < *x && x.is_finite());
    numbers
}

/// x is the significand times its power of 2, with an even exponent and a significand from 1 up and below 4.
fn check_aligned(x: f64, Aligned { significand, exponent }: Aligned) {
    assert!((1 << 52..1 << 54).contains(&significand) && exponent % 2 == 0, "{x:e}");
    let (field, fraction) = (x.to_bits() >> 52, x.to_bits() % (1 << 52));
    // As a whole number, x is `whole` units of 2^`unit`.
    let (whole, unit) = if field == 0 { (fraction, -1074) } else { (fraction | 1 << 52, field as i32 - 1075) };
    let shift = exponent - 52 - unit;
    let same = if shift < 0 { whole << -shift == significand } else { significand << shift == whole };
    assert!(same, "{x:e}");
}

/// After each turn the square of the digits is not above the significand, and that of the next number of so many digits is.
fn check_turns(x: f64, significand: u64) {
    let mut before = 0;
    for turns in 1..=SQRT_TURNS {
        let digits = sqrt_digits(x, turns);
        assert!(digits / 2 == before && digits.ilog2() == turns - 1, "{x:e} {turns}");
        let [square, next] = [digits, digits + 1].map(|n| u128::from(n).pow(2) << (2 * (SQRT_TURNS - turns)));
        let significand = u128::from(significand) << 52;
        assert!(square <= significand && significand < next, "{x:e} {turns}");
        before = digits;
    }
}

/// The nearest number of 53 digits, with half the exponent.
fn check_rounding(x: f64, Aligned { significand, exponent }: Aligned) {
    let digits = sqrt_digits(x, SQRT_TURNS);
    let left = (u128::from(significand) << 52) - u128::from(digits).pow(2);
    let rounded = digits + u64::from(left > digits.into());
    let root = sqrt(x).to_bits();
    assert_eq!(root, ((1023 + exponent / 2) as u64) * (1 << 52) + (rounded - (1 << 52)), "{x:e}");
    assert_eq!(root, x.sqrt().to_bits(), "{x:e}");
}

#[test]
fn every_turn() {
    let numbers = numbers();
    assert!(numbers.len() > 9000);
    for x in numbers {
        let aligned = sqrt_aligned(x).expect("positive and finite");
        check_aligned(x, aligned);
        check_turns(x, aligned.significand);
        check_rounding(x, aligned);
        let word = x.to_bits();
        assert_eq!(bits::sqrt(word), sqrt(x).to_bits());
        assert_eq!(bits::sqrt_aligned(word), (aligned.significand, aligned.exponent));
        assert_eq!([4, 90].map(|turns| bits::sqrt_digits(word, turns)), [4, 90].map(|turns| sqrt_digits(x, turns)));
    }
}
