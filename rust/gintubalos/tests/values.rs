//! The archive's functions through the safe crate: document 01's own values.

use gintubalos::OptionType::{Call, Put};
use gintubalos::{black, probe::*, Refusal, Side};

/// A refusal by a function that takes no step.
fn refused(number: u8) -> Result<f64, Refusal> {
    Err(Refusal { number, steps: 0 })
}

const NAN_BITS: u64 = 0x7FF8_0000_0000_0000;

#[test]
fn table_rows() {
    assert_eq!(erfc(0.0), 1.0);
    assert_eq!(erfcx(-27.0), f64::MAX);
}

/// Every NaN comes back with the same bits.
#[test]
fn not_a_number() {
    for nan in [0x7FF0_0000_0000_0001, 0xFFF8_0000_0000_0000, 0xFFFF_FFFF_FFFF_FFFF] {
        assert_eq!(bits_of(f64::from_bits(nan)), NAN_BITS);
        assert_eq!(bits::exp(nan), NAN_BITS);
        assert_eq!(bits::max(nan, nan), NAN_BITS);
        assert_eq!(bits::max(nan, 0), 0);
    }
    assert_eq!(bits_of(erfc(f64::INFINITY)), NAN_BITS);
    // From 2^1020 on, where x times 16 overflows.
    let far = 2f64.powi(1020);
    assert_eq!(bits_of(erfc(far)), NAN_BITS);
    assert_eq!(bits_of(erfc(-far)), NAN_BITS);
    assert_eq!(erfc(far.next_down()), 0.0);
    assert_eq!(erfc(-far.next_down()), 2.0);
    assert_eq!(bits_of(ln(-1.0)), NAN_BITS);
    assert_eq!(bits_of(sqrt(-1.0)), NAN_BITS);
}

#[test]
fn ends() {
    assert_eq!(exp(0.0), 1.0);
    assert_eq!(ln(0.0), f64::NEG_INFINITY);
    assert_eq!(powf_1_3(-0.0).to_bits(), 0);
    assert_eq!(max(-0.0, 0.0).to_bits(), 0);
    assert!(is_zero(-0.0) && !is_zero(f64::from_bits(1)));
    assert_eq!(inverse_normal_cdf(0.0), f64::NEG_INFINITY);
    assert_eq!(inverse_normal_cdf(1.0), f64::INFINITY);
    // The product overflows, the sum doesn't.
    assert_eq!(mul_add(f64::MAX, 2.0, -f64::MAX), f64::MAX);
}

/// 100 (2 Φ(0.1) − 1), from tables of the normal distribution.
const AT_THE_MONEY: f64 = 7.965567455405804;

#[test]
fn black_price() {
    let call = black(100.0, 100.0, 0.2, 1.0, Call).expect("a price");
    let put = black(100.0, 100.0, 0.2, 1.0, Put).expect("a price");
    assert!((call - AT_THE_MONEY).abs() < 1e-13, "{call}");
    assert_eq!(call, put);
    // A call less a put is forward less strike.
    let call = black(100.0, 95.0, 0.3, 0.5, Call).expect("a price");
    let put = black(100.0, 95.0, 0.3, 0.5, Put).expect("a price");
    assert!((call - put - 5.0).abs() < 1e-13, "{call} {put}");
    // Without volatility there is the intrinsic value alone.
    assert_eq!(black(100.0, 95.0, 0.0, 1.0, Call), Ok(5.0));
    assert_eq!(black(100.0, 95.0, -0.1, 1.0, Put), Ok(0.0));
    // But where forward / strike overflows and sigma is negative or -0, it is refused.
    assert_eq!(black(1e300, 1e-300, -0.2, 1.0, Call), refused(7));
    assert_eq!(black(1e300, 1e-300, -0.0, 1.0, Put), refused(7));
    assert_eq!(black(1e300, 1e-300, 0.0, 1.0, Call), Ok(1e300));
}

/// Document 01's order: forward, strike, sigma, expiry.
#[test]
fn black_refusals() {
    let (least, nan) = (f64::from_bits(1), f64::NAN);
    assert_eq!(black(0.0, -1.0, nan, least, Call), refused(2));
    assert_eq!(black(1.0, f64::INFINITY, nan, least, Put), refused(3));
    assert_eq!(black(1.0, 1.0, nan, least, Call), refused(5));
    assert_eq!(black(1.0, 1.0, 0.1, least, Put), refused(4));
    // Two roundings disagree at the edge of the asymptotic expansion's region.
    let [forward, strike, sigma] =
        [0x3F8C_3B6B_6A8E_A2AE, 0x4050_3C70_C53D_DB57, 0x3FEA_8698_7B35_B0A6].map(f64::from_bits);
    assert_eq!(black(forward, strike, sigma, 1.0, Call), refused(7));
    // A kind that is none is refused before all else.
    assert_eq!(bits::black(0, 0, 0, 0, 3), (NAN_BITS, 24));
    assert_eq!(bits::normalised_intrinsic(0, 0), (NAN_BITS, 24));
}

#[test]
fn normalised_prices() {
    assert_eq!(normalised_intrinsic(-1.0, Call), Ok(0.0));
    assert_eq!(normalised_intrinsic(-1.0, Put), normalised_intrinsic(1.0, Call));
    assert_eq!(normalised_black(-0.3, 0.5, Call), normalised_black_call(-0.3, 0.5));
    assert_eq!(normalised_black(0.3, 0.5, Put), normalised_black_call(-0.3, 0.5));
    assert_eq!(normalised_vega(-1.0, 0.0), 0.0);
    // P11, and the expansion for a small t at a larger one.
    assert_eq!(asymptotic_expansion_of_normalised_black_call(-9.5, 0.1), refused(7));
    assert!(asymptotic_expansion_of_normalised_black_call(-10.5, 0.1).is_ok());
    assert_eq!(small_t_expansion_of_normalised_black_call(-1.0, 0.21132486540518713), refused(8));
    assert!(small_t_expansion_of_normalised_black_call(-1.0, 0.2113248654051871).is_ok());
    // Three ways to one price.
    let (x, s) = (-0.5, 0.4);
    let price = normalised_black_call(x, s).expect("a price");
    assert!((normalised_black_call_using_erfcx(x / s, 0.5 * s) - price).abs() < 1e-15);
    assert!((normalised_black_call_with_optimal_use_of_codys_functions(x, s) - price).abs() < 1e-15);
}

#[test]
fn cubic() {
    // P9 and P10.
    assert_eq!(rational_cubic_interpolation(1.0, 1.0, 1.0, 2.0, 4.0, 0.0, 0.0, 0.0), Ok(3.0));
    assert_eq!(rational_cubic_interpolation(1.0, f64::INFINITY, 1.0, 2.0, 4.0, 0.0, 0.0, 0.0), refused(6));
    // A cubic at r = 3: x³ from 0 to 1.
    assert_eq!(rational_cubic_interpolation(0.5, 0.0, 1.0, 0.0, 1.0, 0.0, 3.0, 3.0), Ok(0.125));
    assert_eq!(minimum_rational_cubic_control_parameter(0.0, 3.0, 1.0, true), 3.0);
    assert_eq!(rational_cubic_control_parameter(0.0, 1.0, 0.0, 1.0, 0.0, 3.0, 0.0, Side::Left), 1.5);
    assert_eq!(rational_cubic_control_parameter(0.0, 1.0, 0.0, 1.0, 0.0, 3.0, 6.0, Side::Right), 2.25);
    assert_eq!(convex_rational_cubic_control_parameter(0.0, 1.0, 0.0, 1.0, 0.0, 3.0, 0.0, false, Side::Left), 3.0);
}
