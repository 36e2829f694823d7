//! Document 01's elementary functions, written from its text alone, with the machine's square root, floor and fused
//! multiply-add.

// The constants stand as document 01 writes them.
#![allow(clippy::approx_constant, clippy::excessive_precision)]

/// ln 2 in two parts.
const H: f64 = f64::from_bits(0x3FE6_2E42_FEE0_0000);
const L: f64 = f64::from_bits(0x3DEA_39EF_3579_3C76);

/// The bits with which a NaN leaves a public call.
pub const NAN_BITS: u64 = 0x7FF8_0000_0000_0000;

/// The bits of x, a NaN's as document 01 compares them.
pub fn bits_of(x: f64) -> u64 {
    if x.is_nan() {
        NAN_BITS
    } else {
        x.to_bits()
    }
}

pub fn abs(y: f64) -> f64 {
    f64::from_bits(y.to_bits() & !(1 << 63))
}

/// The other one if one is NaN; of two zeros of unequal sign, +0.
pub fn max(a: f64, b: f64) -> f64 {
    if a.is_nan() {
        b
    } else if b.is_nan() || a > b {
        a
    } else if b > a {
        b
    } else if a.is_sign_positive() {
        a
    } else {
        b
    }
}

pub fn powi_2(y: f64) -> f64 {
    y * y
}

pub fn is_zero(y: f64) -> bool {
    y == 0.0
}

pub fn sqrt(y: f64) -> f64 {
    y.sqrt()
}

pub fn floor(y: f64) -> f64 {
    y.floor()
}

pub fn mul_add(a: f64, b: f64, c: f64) -> f64 {
    a.mul_add(b, c)
}

/// p × 2^k for a finite p above 0, rounded once to nearest, ties to even.
pub fn scale(p: f64, k: i64) -> f64 {
    // p = significand × 2^exponent, exactly.
    let field = (p.to_bits() >> 52) as i64;
    // Where the result is normal too, the exponent alone changes. For measuring speed: the comparison rounds every time.
    if !cfg!(feature = "round_every_exp") && field > 0 && (1..2047).contains(&(field + k)) {
        return f64::from_bits(p.to_bits().wrapping_add((k as u64) << 52));
    }
    let fraction = p.to_bits() & ((1 << 52) - 1);
    let (significand, exponent) = if field == 0 { (fraction, -1074) } else { (fraction | 1 << 52, field - 1075) };
    round(significand.into(), exponent + k)
}

/// significand × 2^exponent rounded once to nearest, ties to even.
pub fn round(significand: u128, exponent: i64) -> f64 {
    if significand == 0 {
        return 0.0;
    }
    // The result is a whole number of units 2^unit: 53 digits of the significand, or down to the least subnormal.
    let digits = 128 - i64::from(significand.leading_zeros());
    let unit = (exponent + digits - 53).max(-1074);
    let units = if unit <= exponent {
        // At most 53 digits stand here, so that nothing is shifted out.
        significand << (exponent - unit)
    } else {
        let cut = unit - exponent;
        if cut > 128 {
            return 0.0;
        }
        let (whole, rest) =
            if cut == 128 { (0, significand) } else { (significand >> cut, significand & ((1 << cut) - 1)) };
        let half = 1_u128 << (cut - 1);
        whole + u128::from(rest > half || rest == half && whole % 2 == 1)
    };
    // A carry makes 2^53 units, which is the next power of two's first value: the sum below takes it over by itself.
    let field = unit + 1074;
    if units < 1 << 52 {
        return f64::from_bits(units as u64);
    }
    if field + i64::from(units == 1 << 53) >= 2046 {
        return f64::INFINITY;
    }
    f64::from_bits(((field as u64) << 52) + units as u64)
}

pub fn exp(y: f64) -> f64 {
    if y.is_nan() {
        return f64::NAN;
    }
    if y > 709.782712893384 {
        return f64::INFINITY;
    }
    if y < -746.0 {
        return 0.0;
    }
    let k = (y * 1.4426950408889634 + 0.5).floor();
    let r = (y - k * H) - k * L;
    let mut p = 1.0;
    // The compiler unrolls this form of the range, and not 1..=13.
    for i in (1..14).rev() {
        p = 1.0 + (r * p) / f64::from(i);
    }
    scale(p, k as i64)
}

pub fn ln(y: f64) -> f64 {
    if y.is_nan() || y < 0.0 {
        return f64::NAN;
    }
    if y == 0.0 {
        return f64::NEG_INFINITY;
    }
    if y == f64::INFINITY {
        return f64::INFINITY;
    }
    // A subnormal times 2^54 is exact and normal.
    let (normal, less) = if y < f64::MIN_POSITIVE { (y * 18014398509481984.0, 54) } else { (y, 0) };
    let mut e = (normal.to_bits() >> 52) as i32 - 1023 - less;
    let mut m = f64::from_bits(normal.to_bits() & ((1 << 52) - 1) | 1023 << 52);
    if m > 1.4142135623730951 {
        m *= 0.5;
        e += 1;
    }
    let e = f64::from(e);
    let f = m - 1.0;
    let u = f / (2.0 + f);
    let z = u * u;
    let mut q = 1.0 / 23.0;
    for i in (0..11).rev() {
        q = 1.0 / f64::from(2 * i + 1) + z * q;
    }
    e * H + ((2.0 * u) * q + e * L)
}

pub fn powf_1_3(y: f64) -> f64 {
    if y == 0.0 {
        0.0
    } else {
        exp(ln(y) * (1.0 / 3.0))
    }
}

/// The names that `rust_source` puts in place of f64's own methods.
pub trait Rules {
    fn rule_exp(self) -> f64;
    fn rule_ln(self) -> f64;
    fn rule_sqrt(self) -> f64;
    fn rule_floor(self) -> f64;
    fn rule_abs(self) -> f64;
    fn rule_max(self, other: f64) -> f64;
    fn rule_mul_add(self, b: f64, c: f64) -> f64;
    fn rule_powi_2(self) -> f64;
    fn rule_powf_1_3(self) -> f64;
    fn rule_is_zero(self) -> bool;
}

impl Rules for f64 {
    fn rule_exp(self) -> f64 {
        exp(self)
    }
    fn rule_ln(self) -> f64 {
        ln(self)
    }
    fn rule_sqrt(self) -> f64 {
        sqrt(self)
    }
    fn rule_floor(self) -> f64 {
        floor(self)
    }
    fn rule_abs(self) -> f64 {
        abs(self)
    }
    fn rule_max(self, other: f64) -> f64 {
        max(self, other)
    }
    fn rule_mul_add(self, b: f64, c: f64) -> f64 {
        mul_add(self, b, c)
    }
    fn rule_powi_2(self) -> f64 {
        powi_2(self)
    }
    fn rule_powf_1_3(self) -> f64 {
        powf_1_3(self)
    }
    fn rule_is_zero(self) -> bool {
        is_zero(self)
    }
}
