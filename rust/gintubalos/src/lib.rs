//! The proved functions, for Rust. Any bits may come in, a NaN comes back with the bits 7FF8000000000000, and what is not a
//! price, a forward, a strike, an expiry or a sigma is refused with a number.
//!
//! The archive behind it is for x86-64 Linux. All bits rest on the default floating-point environment: rounding to nearest,
//! subnormal numbers neither flushed to zero nor taken for zero. Each call looks at the control word, and where it is
//! another one sets the default for the call and puts it back, so that the bits do not depend on what C code has set.
//!
//! The archive, libabi.a, is what `scripts/archive` writes. It is looked for in the folder that the environment variable
//! GINTUBALOS_ABI names when the crate is built, else in target/staticlib of the repository that the crate stands in. A
//! program that has the crate as a git dependency names the folder, once, in its .cargo/config.toml:
//!
//! ```toml
//! [env]
//! GINTUBALOS_ABI = "/where/libabi.a/is"
//! ```
//!
//! A program that calls the original library's two functions keeps its calls: names and arguments are the same, and
//! [`OptionType`] has the original's numbers, conversions and products. Its `use` lines change in their first word, and an
//! answer is a `Result`, since what the original computes on or panics at is refused here with document 01's number.
//!
//! ```
//! use gintubalos::{
//!     lets_be_rational::{black, implied_volatility_from_a_transformed_rational_guess},
//!     OptionType,
//! };
//!
//! let price = black(100.0, 95.0, 0.2, 1.0, OptionType::Call)?;
//! let volatility =
//!     implied_volatility_from_a_transformed_rational_guess(price, 100.0, 95.0, 1.0, OptionType::Call)?;
//! assert!((volatility - 0.2).abs() < 1e-15);
//! # Ok::<(), gintubalos::Refusal>(())
//! ```
//!
//! The functions that have the original's names have its rules. [`solve`](solve()) takes a [`RuleSet`], as do the other
//! calls that solve: the original library's rules, or the textbook's caps, under which a Call is capped at the forward and
//! a Put at the strike. relist's line has the original's rules.
//!
//! [`bid_ask`](bid_ask()) solves at a low and at a high price together, as a settlement sheet gives them. [`file`](file()),
//! [`recheck`] and [`read`] keep a book of such answers in 64-byte records, and [`line`](line()) is relist's line of one. A
//! [`Board`] has up to 256 live quotes, which arrive and leave, and shows the one of the highest volatility. What is refused
//! is a [`Refusal`], which has the number, its meaning in words and the completed steps.
//!
//! A [`PackedPrice`] is a price as the clearing feed has it, decimal digits in 8 bytes; it is read as the nearest float, and
//! a float is written as the nearest ten-thousandth.
//!
//! [`sqrt`] is the square root, for which nothing is refused; [`sqrt_aligned`] and [`sqrt_digits`] show how it is found: the
//! exponent first, then a binary digit per turn.

#![deny(missing_docs)]

mod bid_ask;
pub mod bits;
mod board;
mod book;
mod environment;
mod kinds;
mod packed_price;
#[cfg(feature = "probe")]
pub mod probe;
mod refusal;
mod rule_set;
mod solution;
mod square_root;

pub use bid_ask::*;
pub use board::*;
pub use book::*;
pub use kinds::*;
pub use packed_price::*;
pub use refusal::*;
pub use rule_set::*;
pub use solution::*;
pub use square_root::*;

/// The original library's path for its two functions.
pub mod lets_be_rational {
    pub use crate::{black, implied_volatility_from_a_transformed_rational_guess};
}
