//! Document 02's second request, caps by the textbook: a call's number says by which rules it is answered. Written from its
//! text.

use crate::{lets_be_rational, rule_set_1, OptionType};

/// The rules that there are.
#[derive(Clone, Copy, Debug, PartialEq, Eq)]
pub enum RuleSet {
    /// "rule set 0, the rules of the first delivery": the Rust as it is.
    FirstDelivery,
    /// "rule set 1, which does that and is otherwise rule set 0": it caps a Call at the forward and a Put at the strike.
    CapsByTheTextbook,
}

/// The Rust's solve, and its public wrapper: price, forward, strike, expiry, the kind, and solve's limit.
type Solve = fn(f64, f64, f64, f64, OptionType, i32) -> f64;
type Wrapper = fn(f64, f64, f64, f64, OptionType) -> f64;

impl RuleSet {
    /// "32, unknown rule set".
    pub fn of(number: u32) -> Result<RuleSet, u8> {
        match number {
            0 => Ok(RuleSet::FirstDelivery),
            1 => Ok(RuleSet::CapsByTheTextbook),
            _ => Err(32),
        }
    }

    /// "32, unknown rule set, before every other check": the rules of a call, or the number that refuses it. `other` is what
    /// another check has, none where it passes.
    pub(crate) fn unless(number: u32, other: Option<u8>) -> Result<RuleSet, u8> {
        let rules = RuleSet::of(number)?;
        other.map_or(Ok(rules), Err)
    }

    pub(crate) fn solve(self) -> Solve {
        use crate::{lets_be_rational::so_rational as first, rule_set_1::so_rational as textbook};
        match self {
            RuleSet::FirstDelivery => {
                first::implied_volatility_from_a_transformed_rational_guess_with_limited_iterations
            }
            RuleSet::CapsByTheTextbook => {
                textbook::implied_volatility_from_a_transformed_rational_guess_with_limited_iterations
            }
        }
    }

    pub(crate) fn wrapper(self) -> Wrapper {
        match self {
            RuleSet::FirstDelivery => lets_be_rational::implied_volatility_from_a_transformed_rational_guess,
            RuleSet::CapsByTheTextbook => rule_set_1::implied_volatility_from_a_transformed_rational_guess,
        }
    }
}
