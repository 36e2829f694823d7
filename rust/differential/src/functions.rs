//! The functions that are compared. A further one is a further line.

use crate::borders::{self, Edges};
use crate::edges::{edges, sixteenths, POINTS};
use crate::inputs::{exponent, fused, line, pair, positive, probability, square, whole, wide, Arguments};
use crate::prices as markets;
use gintubalos::probe::bits as ours;
use random_words::Words;
use rust_over_rules::elementary::{self, bits_of, NAN_BITS};
use rust_over_rules::lets_be_rational::{cody::optimized as cody, normal_distribution as normal};
use rust_over_rules::prices::{self, Side};
use rust_over_rules::OptionType;

/// Bits, and document 01's number of a refusal, 0 where there is none.
pub type Answer = (u64, u8);

pub struct Function {
    pub name: &'static str,
    pub arguments: usize,
    /// The proved function. A NaN has document 01's bits, or the comparison fails.
    pub ours: fn(Arguments) -> Answer,
    /// The Rust. Its NaNs are compared as document 01's.
    pub rust: fn(Arguments) -> Answer,
    pub edges: fn() -> Edges,
    pub inputs: fn(&mut Words) -> Arguments,
    /// How many times a plain function's time this one takes.
    pub cost: u64,
}

/// What a function of either side returns, as an answer.
trait ToAnswer {
    fn answer(self) -> Answer;
}

impl ToAnswer for u64 {
    fn answer(self) -> Answer {
        (self, 0)
    }
}

impl ToAnswer for Answer {
    fn answer(self) -> Answer {
        self
    }
}

impl ToAnswer for f64 {
    fn answer(self) -> Answer {
        (bits_of(self), 0)
    }
}

impl ToAnswer for bool {
    fn answer(self) -> Answer {
        (self.into(), 0)
    }
}

impl ToAnswer for Result<f64, u8> {
    fn answer(self) -> Answer {
        self.map_or_else(|number| (NAN_BITS, number), f64::answer)
    }
}

// What an argument's word is to the Rust.

fn float(bits: u64) -> Result<f64, u8> {
    Ok(f64::from_bits(bits))
}

/// Document 01's kinds; it has a number for any other.
fn kind(byte: u64) -> Result<OptionType, u8> {
    match byte {
        1 => Ok(OptionType::Call),
        2 => Ok(OptionType::Put),
        _ => Err(24),
    }
}

fn side(byte: u64) -> Result<Side, u8> {
    Ok(if byte == 0 { Side::Left } else { Side::Right })
}

fn choice(byte: u64) -> Result<bool, u8> {
    Ok(byte != 0)
}

macro_rules! function {
    ($name:ident($($x:ident: $is:ident),*), $rust:path, $edges:expr, $inputs:expr, $cost:expr) => {
        Function {
            name: stringify!($name),
            arguments: [$(stringify!($x)),*].len(),
            ours: |[$($x,)* ..]| ours::$name($($x as _),*).answer(),
            rust: |[$($x,)* ..]| {
                let answer = || Ok($rust($($is($x)?),*).answer());
                answer().unwrap_or_else(|number| Err(number).answer())
            },
            edges: $edges,
            inputs: |words| wide($inputs(words)),
            cost: $cost,
        }
    };
}

/// A function of one float.
macro_rules! line {
    ($name:ident, $rust:path, $inputs:expr, $cost:expr) => {
        function!($name(x: float), $rust, ones, |w: &mut Words| [$inputs(w)], $cost)
    };
    ($name:ident, $rust:path, $low:expr, $high:expr, $cost:expr) => {
        line!($name, $rust, |w: &mut Words| line(w, $low, $high), $cost)
    };
}

fn ones() -> Edges {
    Edges::of(vec![[edges(&POINTS, 3), sixteenths()].concat()])
}

/// With the first floats at which erfc and the cdf are NaN, since y × 16 overflows, and the last ones before them.
fn far() -> Edges {
    let first = [0x7FB0 << 48, 0x7FB6_A09E_667F_3BCC];
    let samples = first.into_iter().flat_map(|x: u64| [x - 1, x]).flat_map(|x| [x, x | 1 << 63]);
    Edges { samples: samples.map(|x| wide([x])).collect(), ..ones() }
}

fn twos() -> Edges {
    Edges::of(vec![edges(&POINTS, 3); 2])
}

fn threes() -> Edges {
    Edges::of(vec![edges(&POINTS, 1); 3])
}

fn either_sign(words: &mut Words) -> [u64; 1] {
    [line(words, -4.0, 4.0)]
}

#[rustfmt::skip]
pub const FUNCTIONS: &[Function] = &[
    function!(bits_of(x: float), std::convert::identity, ones, either_sign, 1),
    function!(abs(x: float), elementary::abs, ones, either_sign, 1),
    function!(max(a: float, b: float), elementary::max, twos, pair, 1),
    function!(is_zero(x: float), elementary::is_zero, ones, either_sign, 1),
    function!(powi_2(y: float), elementary::powi_2, ones, either_sign, 1),
    line!(floor, elementary::floor, whole, 1),
    line!(sqrt, elementary::sqrt, square, 1),
    function!(mul_add(a: float, b: float, c: float), elementary::mul_add, threes, fused, 1),
    line!(exp, elementary::exp, exponent, 1),
    line!(ln, elementary::ln, positive, 1),
    line!(powf_1_3, elementary::powf_1_3, positive, 1),
    line!(d_int, cody::d_int, whole, 1),
    line!(smoothened_exponential_of_negative_square, cody::smoothened_exponential_of_negative_square, -28.0, 28.0, 1),
    line!(smoothened_exponential_of_positive_square, cody::smoothened_exponential_of_positive_square, -28.0, 28.0, 1),
    line!(ab, cody::ab, 0.0, 0.25, 1),
    line!(cd, cody::cd, 0.4, 4.1, 1),
    line!(pq, cody::pq, 0.0, 0.0625, 1),
    line!(erfcx_above_threshold, cody::erfcx_above_threshold, 0.4, 30.0, 1),
    function!(erfc(x: float), cody::erfc, far, |w: &mut Words| [line(w, -28.0, 28.0)], 1),
    line!(erfcx, cody::erfcx, -28.0, 28.0, 1),
    function!(standard_normal_cdf(x: float), normal::standard_normal_cdf, far, |w: &mut Words| [line(w, -40.0, 40.0)], 1),
    line!(inverse_normal_cdf, normal::inverse_normal_cdf, probability, 10),
    line!(inverse_f_upper_map, normal::inverse_f_upper_map, probability, 10),
    function!(normalised_intrinsic(x: float, option_type: kind), prices::normalised_intrinsic, borders::intrinsic, markets::intrinsic, 2),
    function!(normalised_vega(x: float, s: float), prices::normalised_vega, borders::money, markets::money, 2),
    function!(normalised_black_call_with_optimal_use_of_codys_functions(x: float, s: float), prices::normalised_black_call_with_optimal_use_of_codys_functions, borders::money, markets::money, 2),
    function!(normalised_black_call_using_erfcx(h: float, t: float), prices::normalised_black_call_using_erfcx, borders::expansion, markets::expansion, 2),
    function!(small_t_expansion_of_normalised_black_call(h: float, t: float), prices::small_t_expansion_of_normalised_black_call, borders::expansion, markets::expansion, 2),
    function!(asymptotic_expansion_of_normalised_black_call(h: float, t: float), prices::asymptotic_expansion_of_normalised_black_call, borders::expansion, markets::expansion, 2),
    function!(normalised_black_call(x: float, s: float), prices::normalised_black_call, borders::money, markets::money, 2),
    function!(normalised_black(x: float, s: float, option_type: kind), prices::normalised_black, borders::money_and_kind, markets::money_and_kind, 2),
    function!(black(forward: float, strike: float, sigma: float, expiry: float, option_type: kind), prices::black, borders::market, markets::market, 2),
    function!(rational_cubic_interpolation(x: float, x_l: float, x_r: float, y_l: float, y_r: float, d_l: float, d_r: float, r: float), prices::rational_cubic_interpolation, borders::cubic, markets::cubic, 2),
    function!(minimum_rational_cubic_control_parameter(d_l: float, d_r: float, s: float, prefer: choice), prices::minimum_rational_cubic_control_parameter, borders::minimum, markets::minimum, 2),
    function!(rational_cubic_control_parameter(x_l: float, x_r: float, y_l: float, y_r: float, d_l: float, d_r: float, second: float, at: side), prices::rational_cubic_control_parameter, borders::control, markets::control, 2),
    function!(convex_rational_cubic_control_parameter(x_l: float, x_r: float, y_l: float, y_r: float, d_l: float, d_r: float, second: float, prefer: choice, at: side), prices::convex_rational_cubic_control_parameter, borders::convex, markets::convex, 2),
];

#[cfg(test)]
mod tests {
    use super::*;

    /// Every function's inputs can be made, and the places that it doesn't have are left out.
    #[test]
    fn inputs_have_the_right_count() {
        for function in FUNCTIONS {
            let mut words = Words::new(1, function.name, 0);
            for _ in 0..20_000 {
                let arguments = (function.inputs)(&mut words);
                assert!(arguments[function.arguments..].iter().all(|x| *x == 0), "{}", function.name);
            }
            let edges = (function.edges)();
            assert_eq!(edges.values.len(), function.arguments, "{}", function.name);
            for arguments in edges.borders.into_iter().chain(edges.samples) {
                assert!(arguments[function.arguments..].iter().all(|x| *x == 0), "{}", function.name);
            }
        }
    }
}
