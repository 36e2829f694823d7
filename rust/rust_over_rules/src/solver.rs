//! The Rust's solve with document 01's refusals above it, and the records of its steps.

use crate::elementary::{ln, max, sqrt};
use crate::prices::{normalised_intrinsic, positive_normal};
use crate::refusals::catch_refusal;
use crate::rule_set::RuleSet;
use crate::steps::{watch, Step};
use crate::OptionType;

/// What is asked: an option's price, and what it is an option on.
#[derive(Clone, Copy, Debug)]
pub struct Market {
    pub price: f64,
    pub forward: f64,
    pub strike: f64,
    pub expiry: f64,
    pub kind: OptionType,
}

/// What a run that isn't refused ends with. Ending: 0 no loop, 1 step test, 2 limit.
#[derive(Clone, Copy, Debug)]
pub struct Solution {
    pub volatility: f64,
    pub branch: u8,
    pub ending: u8,
}

/// The answer or document 01's number, and the completed steps, which stand in either case.
#[derive(Debug)]
pub struct Run {
    pub answer: Result<Solution, u8>,
    pub steps: Vec<Step>,
}

impl Run {
    fn refusal(number: u8) -> Run {
        Run { answer: Err(number), steps: Vec::new() }
    }

    /// The completed steps' number.
    pub fn count(&self) -> u32 {
        self.steps.len() as u32
    }
}

impl Market {
    /// 1 to 4, in this order.
    pub fn input_number(&self) -> Option<u8> {
        price_number(self.price).or(option_number(self.forward, self.strike, self.expiry))
    }

    fn run(&self, volatility: impl FnOnce() -> f64) -> Run {
        let (answer, trace) = watch(|| catch_refusal(volatility));
        let ending = match (trace.branch, trace.close) {
            (0, _) => 0,
            (_, true) => 1,
            (_, false) => 2,
        };
        Run {
            answer: answer.map(|volatility| Solution { volatility, branch: trace.branch, ending }),
            steps: trace.steps,
        }
    }
}

// ---- the checks: a number, or none where what is given passes

/// 1.
pub(crate) fn price_number(price: f64) -> Option<u8> {
    (!price.is_finite()).then_some(1)
}

/// 2, 3 and 4, in this order.
pub(crate) fn option_number(forward: f64, strike: f64, expiry: f64) -> Option<u8> {
    let causes = [(forward, 2), (strike, 3), (expiry, 4)];
    causes.into_iter().find(|(x, _)| !positive_normal(*x)).map(|(_, number)| number)
}

/// Whether a trail of so many bytes has room for all steps that the limit allows.
pub fn is_long_enough(trail: usize, limit: i32) -> bool {
    trail as u64 >= 48 * limit.max(0) as u64
}

/// 21, of a trail of so many bytes; a call without one has no such check.
pub(crate) fn trail_number(trail: Option<usize>, limit: i32) -> Option<u8> {
    trail.filter(|bytes| !is_long_enough(*bytes, limit)).map(|_| 21)
}

// ---- the calls

/// solve with a trail of so many bytes, or without one.
pub fn solve(rule_set: u32, market: Market, limit: i32, trail: Option<usize>) -> Run {
    match RuleSet::unless(rule_set, market.input_number().or(trail_number(trail, limit))) {
        Ok(rules) => {
            let Market { price, forward, strike, expiry, kind } = market;
            market.run(|| rules.solve()(price, forward, strike, expiry, kind, limit))
        }
        Err(number) => Run::refusal(number),
    }
}

/// The Rust's public wrapper, which has its own limit.
pub fn implied_volatility_from_a_transformed_rational_guess(rule_set: u32, market: Market) -> Run {
    match RuleSet::unless(rule_set, market.input_number()) {
        Ok(rules) => {
            let Market { price, forward, strike, expiry, kind } = market;
            market.run(|| rules.wrapper()(price, forward, strike, expiry, kind))
        }
        Err(number) => Run::refusal(number),
    }
}

/// The price that the loop seeks, none where the answer comes without one: the Rust's mapping, in its order. The caps have no
/// part in it, so the rule set says only whether there is a loop.
pub fn target(rule_set: u32, market: Market) -> Result<Option<f64>, u8> {
    if solve(rule_set, market, 0, None).answer?.branch == 0 {
        return Ok(None);
    }
    let Market { mut price, forward, strike, mut kind, .. } = market;
    let x = ln(forward / strike);
    if kind * x > 0.0 {
        price = max(price - max(kind * (forward - strike), 0.0), 0.0);
        kind = -kind;
    }
    let beta = price / (sqrt(forward) * sqrt(strike));
    Ok(Some(if kind * x > 0.0 { max(beta - normalised_intrinsic(x, kind), 0.0) } else { beta }))
}
