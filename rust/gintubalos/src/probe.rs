//! The functions of the two lower layers, which only the comparison with the Rust and the bench call: with the types of Rust,
//! and on plain numbers in `bits`. Behind the feature `probe`; a program uses what stands in the crate itself.

use crate::{OptionType, Refusal, Side};

/// What every function of the crate but those on bits does before its call of the archive: here to measure what it costs.
pub use crate::environment::in_default;

/// The crate's own, for those that call every function here.
pub use crate::sqrt;

/// What an argument crosses as: a float as its bits, all else as a byte.
pub trait Crosses {
    /// The plain number.
    type Plain;
    /// The value as that number.
    fn plain(self) -> Self::Plain;
}

impl Crosses for f64 {
    type Plain = u64;
    fn plain(self) -> u64 {
        self.to_bits()
    }
}

impl Crosses for OptionType {
    type Plain = u8;
    fn plain(self) -> u8 {
        self.byte()
    }
}

macro_rules! bytes {
    ($($t:ty)*) => { $(impl Crosses for $t {
        type Plain = u8;
        fn plain(self) -> u8 {
            self as u8
        }
    })* };
}

bytes!(Side bool);

/// Declares the archive's functions and wraps each: on plain numbers in `bits`, and beside it with the types of Rust.
macro_rules! functions {
    (
        floats { $($(#[$doc:meta])* $name:ident = $symbol:ident($($x:ident: $t:ty),*);)* }
        answers { $($(#[$answer_doc:meta])* $answer:ident = $answer_symbol:ident($($z:ident: $u:ty),*);)* }
        numbers { $($other:ident = $other_symbol:ident($($y:ident),*);)* }
    ) => {
        mod archive {
            use super::Crosses;
            use crate::{OptionType, Side};
            extern "C" {
                $(pub fn $symbol($($x: <$t as Crosses>::Plain),*) -> u64;)*
                $(pub fn $answer_symbol($($z: <$u as Crosses>::Plain,)* number: &mut u8) -> u64;)*
                $(pub fn $other_symbol($($y: u64),*) -> u64;)*
            }
        }

        /// All functions on the bits of floats and on bytes, as the archive has them, those of [`crate::bits`] too. An
        /// answer is the value's bits, a NaN's where it is refused, and document 01's number, 0 where it isn't. A kind is
        /// 1 or 2, and refused with 24 where it is neither; a side is Left at 0, a choice false at 0.
        ///
        /// ```
        /// use gintubalos::probe::bits;
        ///
        /// assert_eq!(bits::sqrt(0x4010_0000_0000_0000), 0x4000_0000_0000_0000);
        /// ```
        #[allow(clippy::too_many_arguments)]
        pub mod bits {
            use super::Crosses;
            use crate::{OptionType, Side};
            pub use crate::bits::*;
            // SAFETY, for each: the function takes and returns numbers, writes to `number` alone, has no requires, and
            // is proved to end.
            $(#[doc = concat!("[`", stringify!($name), "`](crate::probe::", stringify!($name), ") on bits.")]
            #[inline]
            pub fn $name($($x: <$t as Crosses>::Plain),*) -> u64 {
                unsafe { super::archive::$symbol($($x),*) }
            })*
            $(#[doc = concat!("[`", stringify!($answer), "`](crate::probe::", stringify!($answer), ") on bits.")]
            #[inline]
            pub fn $answer($($z: <$u as Crosses>::Plain),*) -> (u64, u8) {
                let mut number = 0;
                let value = unsafe { super::archive::$answer_symbol($($z,)* &mut number) };
                (value, number)
            })*
            $(#[doc = concat!("[`", stringify!($other), "`](crate::probe::", stringify!($other), ") on bits.")]
            #[inline]
            pub fn $other($($y: u64),*) -> u64 {
                unsafe { super::archive::$other_symbol($($y),*) }
            })*
        }

        $($(#[$doc])*
        #[allow(clippy::too_many_arguments)]
        #[inline]
        pub fn $name($($x: $t),*) -> f64 {
            f64::from_bits(in_default(move || bits::$name($($x.plain()),*)))
        })*

        $($(#[$answer_doc])*
        #[allow(clippy::too_many_arguments)]
        #[inline]
        pub fn $answer($($z: $u),*) -> Result<f64, Refusal> {
            match in_default(move || bits::$answer($($z.plain()),*)) {
                (value, 0) => Ok(f64::from_bits(value)),
                (_, number) => Err(Refusal { number, steps: 0 }),
            }
        })*
    };
}

functions! {
    floats {
        /// x without its sign.
        ///
        /// ```
        /// assert_eq!(gintubalos::probe::abs(-2.0), 2.0);
        /// ```
        abs = gintubalos_probe_abs(x: f64);
        /// The greater one; the other one if one is NaN; of two zeros of unequal sign, +0.
        ///
        /// ```
        /// assert_eq!(gintubalos::probe::max(f64::NAN, 1.0), 1.0);
        /// ```
        max = gintubalos_probe_max(a: f64, b: f64);
        /// y × y.
        ///
        /// ```
        /// assert_eq!(gintubalos::probe::powi_2(-3.0), 9.0);
        /// ```
        powi_2 = gintubalos_probe_powi_2(y: f64);
        /// IEEE 754's roundToIntegralTowardNegative.
        ///
        /// ```
        /// assert_eq!(gintubalos::probe::floor(-0.5), -1.0);
        /// ```
        floor = gintubalos_probe_floor(x: f64);
        /// IEEE 754's fusedMultiplyAdd: a × b + c, rounded once.
        ///
        /// ```
        /// assert_eq!(gintubalos::probe::mul_add(f64::MAX, 2.0, -f64::MAX), f64::MAX);
        /// ```
        mul_add = gintubalos_probe_mul_add(a: f64, b: f64, c: f64);
        /// exp by document 01's rule.
        ///
        /// ```
        /// assert_eq!(gintubalos::probe::exp(0.0), 1.0);
        /// ```
        exp = gintubalos_probe_exp(y: f64);
        /// ln by document 01's rule.
        ///
        /// ```
        /// assert_eq!(gintubalos::probe::ln(1.0), 0.0);
        /// ```
        ln = gintubalos_probe_ln(y: f64);
        /// powf(1/3) by document 01's rule: 0 for a zero.
        ///
        /// ```
        /// assert_eq!(gintubalos::probe::powf_1_3(-0.0).to_bits(), 0);
        /// ```
        powf_1_3 = gintubalos_probe_powf_1_3(y: f64);
        /// The whole part, toward 0.
        ///
        /// ```
        /// assert_eq!(gintubalos::probe::d_int(-1.5), -1.0);
        /// ```
        d_int = gintubalos_probe_d_int(x: f64);
        /// exp(−y²), with y cut to sixteenths so that the square is exact.
        ///
        /// ```
        /// assert_eq!(gintubalos::probe::smoothened_exponential_of_negative_square(0.0), 1.0);
        /// ```
        smoothened_exponential_of_negative_square = gintubalos_probe_smoothened_exponential_of_negative_square(y: f64);
        /// exp(x²), with x cut to sixteenths so that the square is exact.
        ///
        /// ```
        /// assert_eq!(gintubalos::probe::smoothened_exponential_of_positive_square(0.0), 1.0);
        /// ```
        smoothened_exponential_of_positive_square = gintubalos_probe_smoothened_exponential_of_positive_square(x: f64);
        /// Cody's rational with tables A and B.
        ///
        /// ```
        /// // erf(x) is x times it at x², and 2/√π is erf's slope at 0.
        /// assert!((gintubalos::probe::ab(0.0) - 1.1283791670955126).abs() < 1e-15);
        /// ```
        ab = gintubalos_probe_ab(z: f64);
        /// Cody's rational with tables C and D.
        ///
        /// ```
        /// assert!((gintubalos::probe::cd(1.0) - gintubalos::probe::erfcx(1.0)).abs() < 1e-15);
        /// ```
        cd = gintubalos_probe_cd(y: f64);
        /// Cody's rational with tables P and Q.
        ///
        /// ```
        /// // It is 1/√π less y × erfcx(y), at 1/y².
        /// assert!((0.5641895835477563 - 5.0 * gintubalos::probe::erfcx(5.0) - gintubalos::probe::pq(0.04)).abs() < 1e-15);
        /// ```
        pq = gintubalos_probe_pq(z: f64);
        /// erfcx above Cody's threshold of 0.46875.
        ///
        /// ```
        /// assert_eq!(gintubalos::probe::erfcx_above_threshold(2.0), gintubalos::probe::erfcx(2.0));
        /// ```
        erfcx_above_threshold = gintubalos_probe_erfcx_above_threshold(y: f64);
        /// The complementary error function. Of an infinity it is NaN.
        ///
        /// ```
        /// assert_eq!(gintubalos::probe::erfc(0.0), 1.0);
        /// ```
        erfc = gintubalos_probe_erfc(x: f64);
        /// The scaled complementary error function; f64::MAX below −26.6287357137514.
        ///
        /// ```
        /// assert_eq!(gintubalos::probe::erfcx(-27.0), f64::MAX);
        /// ```
        erfcx = gintubalos_probe_erfcx(x: f64);
        /// The normal distribution: 0.5 × erfc(−x × FRAC_1_SQRT_2).
        ///
        /// ```
        /// assert_eq!(gintubalos::probe::standard_normal_cdf(0.0), 0.5);
        /// ```
        standard_normal_cdf = gintubalos_probe_standard_normal_cdf(x: f64);
        /// The normal distribution's inverse, by bisection.
        ///
        /// ```
        /// assert_eq!(gintubalos::probe::inverse_normal_cdf(1.0), f64::INFINITY);
        /// ```
        inverse_normal_cdf = gintubalos_probe_inverse_normal_cdf(x: f64);
        /// −2 times the normal distribution's inverse.
        ///
        /// ```
        /// assert_eq!(gintubalos::probe::inverse_f_upper_map(0.0), f64::INFINITY);
        /// ```
        inverse_f_upper_map = gintubalos_probe_inverse_f_upper_map(f: f64);
        /// The normalised price's slope in s.
        ///
        /// ```
        /// assert_eq!(gintubalos::probe::normalised_vega(-1.0, 0.0), 0.0);
        /// ```
        normalised_vega = gintubalos_probe_normalised_vega(x: f64, s: f64);
        /// The normalised call's price by erfcx, at h = x / s and t = s / 2.
        ///
        /// ```
        /// let price = gintubalos::probe::normalised_black_call(-0.5, 0.5).unwrap();
        /// assert!((gintubalos::probe::normalised_black_call_using_erfcx(-1.0, 0.25) - price).abs() < 1e-15);
        /// ```
        normalised_black_call_using_erfcx = gintubalos_probe_normalised_black_call_using_erfcx(h: f64, t: f64);
        /// The normalised call's price by whichever of Cody's functions loses least.
        ///
        /// ```
        /// let price = gintubalos::probe::normalised_black_call(-0.5, 0.5).unwrap();
        /// let by_cody = gintubalos::probe::normalised_black_call_with_optimal_use_of_codys_functions(-0.5, 0.5);
        /// assert!((by_cody - price).abs() < 1e-15);
        /// ```
        normalised_black_call_with_optimal_use_of_codys_functions =
            gintubalos_probe_normalised_black_call_with_optimal_use_of_codys_functions(x: f64, s: f64);
        /// The least control parameter that keeps the cubic's shape.
        ///
        /// ```
        /// assert_eq!(gintubalos::probe::minimum_rational_cubic_control_parameter(0.0, 3.0, 1.0, true), 3.0);
        /// ```
        minimum_rational_cubic_control_parameter = gintubalos_probe_minimum_rational_cubic_control_parameter(
            d_l: f64, d_r: f64, s: f64, prefer_shape_preservation_over_smoothness: bool);
        /// The control parameter that gives the cubic a second derivative at one end.
        ///
        /// ```
        /// use gintubalos::{probe::rational_cubic_control_parameter, Side};
        ///
        /// assert_eq!(rational_cubic_control_parameter(0.0, 1.0, 0.0, 1.0, 0.0, 3.0, 6.0, Side::Right), 2.25);
        /// ```
        rational_cubic_control_parameter = gintubalos_probe_rational_cubic_control_parameter(
            x_l: f64, x_r: f64, y_l: f64, y_r: f64, d_l: f64, d_r: f64, second_derivative: f64, side: Side);
        /// That parameter, and not under the least one.
        ///
        /// ```
        /// use gintubalos::{probe::convex_rational_cubic_control_parameter, Side};
        ///
        /// let r = convex_rational_cubic_control_parameter(0.0, 1.0, 0.0, 1.0, 0.0, 3.0, 0.0, false, Side::Left);
        /// assert_eq!(r, 3.0);
        /// ```
        convex_rational_cubic_control_parameter = gintubalos_probe_convex_rational_cubic_control_parameter(
            x_l: f64, x_r: f64, y_l: f64, y_r: f64, d_l: f64, d_r: f64, second_derivative: f64,
            prefer_shape_preservation_over_smoothness: bool, side: Side);
    }
    answers {
        /// The normalised intrinsic value at x = ln(forward / strike). Never refused.
        ///
        /// ```
        /// assert_eq!(gintubalos::probe::normalised_intrinsic(-1.0, gintubalos::OptionType::Call), Ok(0.0));
        /// ```
        normalised_intrinsic = gintubalos_probe_normalised_intrinsic(x: f64, option_type: OptionType);
        /// The normalised call's price for a small t. Refused with 8 from t = 2 × 0.10566243270259357 on.
        ///
        /// ```
        /// let refusal = gintubalos::probe::small_t_expansion_of_normalised_black_call(-1.0, 0.25).unwrap_err();
        /// assert_eq!(refusal.number, 8);
        /// ```
        small_t_expansion_of_normalised_black_call =
            gintubalos_probe_small_t_expansion_of_normalised_black_call(h: f64, t: f64);
        /// The normalised call's price far out of the money. Refused with 7 outside its region.
        ///
        /// ```
        /// let refusal = gintubalos::probe::asymptotic_expansion_of_normalised_black_call(-9.5, 0.1).unwrap_err();
        /// assert_eq!(refusal.number, 7);
        /// ```
        asymptotic_expansion_of_normalised_black_call =
            gintubalos_probe_asymptotic_expansion_of_normalised_black_call(h: f64, t: f64);
        /// The normalised call's price. Refused with 7 at the asymptotic region's edge.
        ///
        /// ```
        /// assert_eq!(gintubalos::probe::normalised_black_call(-1.0, 0.0), Ok(0.0));
        /// ```
        normalised_black_call = gintubalos_probe_normalised_black_call(x: f64, s: f64);
        /// The normalised price of either kind. Refused with 7 at the asymptotic region's edge.
        ///
        /// ```
        /// use gintubalos::{probe::normalised_black, OptionType::{Call, Put}};
        ///
        /// assert_eq!(normalised_black(0.3, 0.5, Put), normalised_black(-0.3, 0.5, Call));
        /// ```
        normalised_black = gintubalos_probe_normalised_black(x: f64, s: f64, option_type: OptionType);
        /// The rational cubic at x. Refused with 6 where x, x_l or x_r is infinite.
        ///
        /// ```
        /// use gintubalos::probe::rational_cubic_interpolation;
        ///
        /// assert_eq!(rational_cubic_interpolation(0.5, 0.0, 1.0, 0.0, 1.0, 0.0, 3.0, 3.0), Ok(0.125));
        /// ```
        rational_cubic_interpolation = gintubalos_probe_rational_cubic_interpolation(
            x: f64, x_l: f64, x_r: f64, y_l: f64, y_r: f64, d_l: f64, d_r: f64, r: f64);
    }
    numbers {
        bits_of = gintubalos_probe_bits_of(x);
        is_zero = gintubalos_probe_is_zero(x);
    }
}

/// The bits of x, 7FF8000000000000 at a NaN.
///
/// ```
/// assert_eq!(gintubalos::probe::bits_of(-f64::NAN), 0x7FF8_0000_0000_0000);
/// ```
pub fn bits_of(x: f64) -> u64 {
    bits::bits_of(x.to_bits())
}

/// Equal to 0.
///
/// ```
/// assert!(gintubalos::probe::is_zero(-0.0));
/// ```
pub fn is_zero(x: f64) -> bool {
    bits::is_zero(x.to_bits()) != 0
}
