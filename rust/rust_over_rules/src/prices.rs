//! The Rust's prices and cubic, each with document 01's number where the Rust has `Err`, `None` or a panic, and document
//! 01's refusals above `black`.

use crate::lets_be_rational::{self, black as prices, rational_cubic as cubic};
use crate::refusals::{catch_refusal, Answer};
use crate::OptionType;

pub use crate::lets_be_rational::{
    black::{normalised_black_call_using_erfcx, normalised_black_call_with_optimal_use_of_codys_functions},
    intrinsic::normalised_intrinsic,
    rational_cubic::{
        convex_rational_cubic_control_parameter, minimum_rational_cubic_control_parameter,
        rational_cubic_control_parameter, Side,
    },
    so_rational::normalised_vega,
};

pub fn small_t_expansion_of_normalised_black_call(h: f64, t: f64) -> Answer {
    prices::small_t_expansion_of_normalised_black_call(h, t).ok_or(8)
}

pub fn asymptotic_expansion_of_normalised_black_call(h: f64, t: f64) -> Answer {
    prices::asymptotic_expansion_of_normalised_black_call(h, t).map_err(|_| 7)
}

pub fn normalised_black_call(x: f64, s: f64) -> Answer {
    catch_refusal(|| prices::normalised_black_call(x, s))
}

pub fn normalised_black(x: f64, s: f64, kind: OptionType) -> Answer {
    catch_refusal(|| prices::normalised_black(x, s, kind))
}

/// Document 01's "positive normal finite number".
pub(crate) fn positive_normal(x: f64) -> bool {
    x.is_normal() && x > 0.0
}

/// Refusals in document 01's order.
pub fn black(forward: f64, strike: f64, sigma: f64, expiry: f64, kind: OptionType) -> Answer {
    if !positive_normal(forward) {
        return Err(2);
    }
    if !positive_normal(strike) {
        return Err(3);
    }
    if !sigma.is_finite() {
        return Err(5);
    }
    if !positive_normal(expiry) {
        return Err(4);
    }
    catch_refusal(|| lets_be_rational::black(forward, strike, sigma, expiry, kind))
}

#[allow(clippy::too_many_arguments)]
pub fn rational_cubic_interpolation(
    x: f64,
    x_l: f64,
    x_r: f64,
    y_l: f64,
    y_r: f64,
    d_l: f64,
    d_r: f64,
    r: f64,
) -> Answer {
    cubic::rational_cubic_interpolation(x, x_l, x_r, y_l, y_r, d_l, d_r, r).map_err(|_| 6)
}
