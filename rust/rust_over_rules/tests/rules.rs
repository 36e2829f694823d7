//! Document 01's functions and the Rust over them against document 01's own values and against exact arithmetic.

use random_words::Words;
use rust_over_rules::elementary::{abs, bits_of, exp, ln, max, mul_add, powf_1_3, round, scale, NAN_BITS};

#[test]
fn small_methods() {
    assert_eq!(abs(-0.0).to_bits(), 0);
    assert_eq!(max(-0.0, 0.0).to_bits(), 0);
    assert_eq!(max(0.0, -0.0).to_bits(), 0);
    assert_eq!(max(-0.0, -0.0).to_bits(), 1 << 63);
    assert_eq!(max(f64::NAN, 2.0), 2.0);
    assert_eq!(max(2.0, f64::NAN), 2.0);
    assert_eq!(bits_of(f64::from_bits(0xFFF0_0000_0000_0001)), NAN_BITS);
    assert_eq!(bits_of(max(f64::NAN, f64::NAN)), NAN_BITS);
}

/// `round` of an exact integer is what the machine's conversion from that integer gives.
#[test]
fn rounding_of_whole_numbers() {
    let mut words = Words::new(1, "whole numbers", 0);
    for _ in 0..100_000 {
        let wide = u128::from(words.any()) << 64 | u128::from(words.any());
        let significand = wide >> (words.any() % 128);
        assert_eq!(round(significand, 0), significand as f64, "{significand}");
    }
}

/// A product with a power of two, each side rounded once: the machine's multiplication rounds a subnormal result once.
#[test]
fn scaling_is_one_rounding() {
    let mut words = Words::new(1, "scaling", 0);
    for _ in 0..100_000 {
        let p = f64::from_bits((words.any() >> 12) | 1022 << 52);
        let k = (words.any() % 100) as i64 - 1100;
        // 2^(k + 600) × 2^-600 × p: the first product is exact.
        let power = f64::from_bits(((k + 600 + 1023) as u64) << 52);
        let low = f64::from_bits((1023 - 600) << 52);
        assert_eq!(scale(p, k), p * power * low, "{p} {k}");
    }
    assert_eq!(scale(1.0, -1075), 0.0);
    assert_eq!(scale(1.0000000000000002, -1075).to_bits(), 1);
    assert_eq!(scale(1.5, -1074).to_bits(), 2);
    assert_eq!(scale(1.0, 1024), f64::INFINITY);
    assert_eq!(scale(0.9999999999999999, 1024), f64::MAX);
}

#[test]
fn exponential() {
    assert_eq!(exp(0.0), 1.0);
    assert_eq!(exp(-0.0), 1.0);
    assert_eq!(exp(709.7827128933841), f64::INFINITY);
    assert!(exp(709.782712893384).is_finite());
    assert_eq!(exp(-746.0), 0.0);
    assert_eq!(exp(-746.0000000000001), 0.0);
    assert_eq!(exp(-745.0).to_bits(), 1);
    assert!(exp(f64::NAN).is_nan());
    assert_eq!(exp(f64::NEG_INFINITY), 0.0);
}

/// Within a few units in the last place of the machine's own functions.
#[test]
fn near_the_machine() {
    let mut words = Words::new(1, "near the machine", 0);
    for _ in 0..100_000 {
        let y = words.uniform(-700.0, 700.0);
        assert!((exp(y) / y.exp() - 1.0).abs() < 1e-14, "exp {y}");
        let y = f64::from_bits(words.any() >> 1);
        if y.is_finite() && y > 0.0 {
            assert!((ln(y) - y.ln()).abs() <= 1e-15 * y.ln().abs().max(1.0), "ln {y}");
        }
    }
}

#[test]
fn logarithm() {
    assert_eq!(ln(1.0).to_bits(), 0);
    assert_eq!(ln(-0.0), f64::NEG_INFINITY);
    assert_eq!(ln(f64::INFINITY), f64::INFINITY);
    assert!(ln(-1.0).is_nan());
    assert_eq!(ln(f64::from_bits(1)), -1074.0 * std::f64::consts::LN_2);
    assert_eq!(powf_1_3(-0.0).to_bits(), 0);
    assert_eq!(powf_1_3(27.0), exp(ln(27.0) * (1.0 / 3.0)));
}

/// fma's own definition in small whole numbers: exact products and sums, rounded once.
#[test]
fn fused_multiply_add() {
    let mut words = Words::new(1, "fused", 0);
    for _ in 0..100_000 {
        let (a, b, c) = (words.any() >> 11, words.any() >> 11, words.any() >> 11);
        let exact = u128::from(a) * u128::from(b) + u128::from(c);
        assert_eq!(mul_add(a as f64, b as f64, c as f64), round(exact, 0));
    }
}

#[cfg(rust_source)]
mod source {
    use rust_over_rules::elementary::{bits_of, NAN_BITS};
    use rust_over_rules::lets_be_rational::{
        black,
        cody::optimized::{erfc, erfcx},
        implied_volatility_from_a_transformed_rational_guess as implied_volatility,
        normal_distribution::{inverse_f_upper_map, inverse_normal_cdf, standard_normal_cdf},
    };
    use rust_over_rules::prices;
    use rust_over_rules::OptionType::{Call, Put};

    /// Document 01's P7 and P8, and what it says of erfc's far end.
    #[test]
    fn error_function() {
        assert_eq!(erfc(0.0), 1.0);
        assert_eq!(erfcx(-27.0), f64::MAX);
        assert_eq!(bits_of(erfc(f64::INFINITY)), NAN_BITS);
        assert_eq!(bits_of(erfc(f64::NEG_INFINITY)), NAN_BITS);
        assert_eq!(erfc(26.543), 0.0);
    }

    #[test]
    fn normal_distribution() {
        assert_eq!(standard_normal_cdf(0.0), 0.5);
        assert_eq!(inverse_normal_cdf(0.0), f64::NEG_INFINITY);
        assert_eq!(inverse_normal_cdf(1.0), f64::INFINITY);
        assert!(inverse_normal_cdf(f64::NAN).is_nan());
        for p in [f64::from_bits(1), 1e-300, 0.02425, 0.5, 0.9, 1.0 - f64::EPSILON] {
            let x = inverse_normal_cdf(p);
            assert!(p <= standard_normal_cdf(x));
            assert_eq!(inverse_f_upper_map(p), -2.0 * x);
        }
    }

    /// Document 01's P9 to P11, and what else is refused.
    #[test]
    fn refusals() {
        assert_eq!(prices::rational_cubic_interpolation(1.0, 1.0, 1.0, 2.0, 4.0, 0.0, 0.0, 0.0), Ok(3.0));
        assert_eq!(prices::rational_cubic_interpolation(1.0, f64::INFINITY, 1.0, 2.0, 4.0, 0.0, 0.0, 0.0), Err(6));
        assert_eq!(prices::asymptotic_expansion_of_normalised_black_call(-9.5, 0.0), Err(7));
        assert_eq!(prices::small_t_expansion_of_normalised_black_call(0.0, 0.21132486540518713), Err(8));
        assert_eq!(prices::black(-1.0, f64::NAN, f64::NAN, 0.0, Call), Err(2));
        assert_eq!(prices::black(1.0, f64::NAN, f64::NAN, 0.0, Call), Err(3));
        assert_eq!(prices::black(1.0, 1.0, f64::NAN, 0.0, Call), Err(5));
        assert_eq!(prices::black(1.0, 1.0, 0.5, 0.0, Call), Err(4));
        let seven = [0x3F8C_3B6B_6A8E_A2AE, 0x4050_3C70_C53D_DB57, 0x3FEA_8698_7B35_B0A6].map(f64::from_bits);
        assert_eq!(prices::black(seven[0], seven[1], seven[2], 1.0, Call), Err(7));
    }

    /// Document 01's P1 to P6.
    #[test]
    fn volatility() {
        assert_eq!(implied_volatility(150.0, 100.0, 200.0, 4.0, Call).to_bits(), 0x7FDF_FFFF_FFFF_FFFF);
        assert_eq!(implied_volatility(99.0, 200.0, 100.0, 1.0, Call), -f64::MAX);
        assert_eq!(implied_volatility(0.0, 100.0, 200.0, 1.0, Call).to_bits(), 0);
        assert_eq!(implied_volatility(150.0, 100.0, 200.0, 0.25, Call), f64::INFINITY);
        assert_eq!(implied_volatility(100.0, 200.0, 100.0, 4.0, Call), f64::MAX);
        assert_eq!(implied_volatility(-0.0, 100.0, 100.0, 1.0, Put).to_bits(), 0);
    }

    /// A price and the volatility that it came from.
    #[test]
    fn round_trip() {
        let price = black(100.0, 95.0, 0.2, 1.0, Call);
        let found = implied_volatility(price, 100.0, 95.0, 1.0, Call);
        assert!((found - 0.2).abs() < 1e-14, "{found}");
    }
}
