// The text that is written where the source folder isn't at hand, so that the programs over it can be built and say so.

pub mod inputs {
    use std::ops::{Mul, Neg};

    #[derive(Debug, Clone, Eq, PartialEq, Copy)]
    pub enum OptionType {
        Call,
        Put,
    }

    impl Neg for OptionType {
        type Output = OptionType;
        fn neg(self) -> OptionType {
            panic!("no Rust source");
        }
    }

    impl Mul<f64> for OptionType {
        type Output = f64;
        fn mul(self, _: f64) -> f64 {
            panic!("no Rust source");
        }
    }
}

pub mod lets_be_rational {
    use crate::OptionType;

    macro_rules! absent {
        ($($name:ident($($argument:ty),*) -> $result:ty;)*) => {
            $(#[allow(clippy::too_many_arguments)]
            pub fn $name($(_: $argument),*) -> $result {
                panic!("no Rust source");
            })*
        };
    }

    absent! {
        black(f64, f64, f64, f64, OptionType) -> f64;
        implied_volatility_from_a_transformed_rational_guess(f64, f64, f64, f64, OptionType) -> f64;
    }

    pub mod cody {
        pub mod optimized {
            absent! {
                d_int(f64) -> f64;
                smoothened_exponential_of_negative_square(f64) -> f64;
                smoothened_exponential_of_positive_square(f64) -> f64;
                ab(f64) -> f64;
                cd(f64) -> f64;
                pq(f64) -> f64;
                erfcx_above_threshold(f64) -> f64;
                erfc(f64) -> f64;
                erfcx(f64) -> f64;
            }
        }
    }

    pub mod normal_distribution {
        absent! {
            standard_normal_cdf(f64) -> f64;
            inverse_normal_cdf(f64) -> f64;
            inverse_f_upper_map(f64) -> f64;
        }
    }

    pub mod intrinsic {
        use crate::OptionType;
        absent! { normalised_intrinsic(f64, OptionType) -> f64; }
    }

    pub mod so_rational {
        use crate::OptionType;
        absent! {
            normalised_vega(f64, f64) -> f64;
            implied_volatility_from_a_transformed_rational_guess_with_limited_iterations(
                f64, f64, f64, f64, OptionType, i32
            ) -> f64;
        }
    }

    pub mod black {
        use crate::OptionType;
        absent! {
            normalised_black_call_with_optimal_use_of_codys_functions(f64, f64) -> f64;
            normalised_black_call_using_erfcx(f64, f64) -> f64;
            small_t_expansion_of_normalised_black_call(f64, f64) -> Option<f64>;
            asymptotic_expansion_of_normalised_black_call(f64, f64) -> Result<f64, &'static str>;
            normalised_black_call(f64, f64) -> f64;
            normalised_black(f64, f64, OptionType) -> f64;
        }
    }

    pub mod rational_cubic {
        pub enum Side {
            Left,
            Right,
        }
        absent! {
            rational_cubic_interpolation(f64, f64, f64, f64, f64, f64, f64, f64) -> Result<f64, String>;
            minimum_rational_cubic_control_parameter(f64, f64, f64, bool) -> f64;
            rational_cubic_control_parameter(f64, f64, f64, f64, f64, f64, f64, Side) -> f64;
            convex_rational_cubic_control_parameter(f64, f64, f64, f64, f64, f64, f64, bool, Side) -> f64;
        }
    }
}
