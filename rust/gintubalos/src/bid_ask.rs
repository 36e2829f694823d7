//! Bid and ask together: solve at a low and at a high price of one option.

use crate::{
    bits, completed_steps,
    environment::in_default,
    solution::{limit_for, to_solution, trail_for},
    OptionType, Refusal, RuleSet, Run, Solution,
};

/// What the two prices yield, each as the single call has it. A 6 or 7 is its own end's: the other end has its answer.
#[derive(Clone, Copy, Debug, PartialEq)]
pub struct BidAsk {
    /// The low price's answer, or its refusal.
    pub low: Result<Solution, Refusal>,
    /// The high price's answer, or its refusal.
    pub high: Result<Solution, Refusal>,
}

/// What the archive answers: the number that refuses the whole call, 0 for none, and each end's two words.
#[inline]
fn to_bid_ask((number, [low, high]): (u8, [(u64, u64); 2])) -> Result<BidAsk, Refusal> {
    match number {
        0 => Ok(BidAsk { low: to_solution(low), high: to_solution(high) }),
        number => Err(Refusal { number, steps: 0 }),
    }
}

/// The implied volatilities of a low and of a high price of one option, each after `max_iteration` steps at most, and each
/// what the single call with that limit and those rules gives for its price. Of the prices between them nothing is said: a
/// computed volatility need not rise with the price.
///
/// The whole call is refused with 1 for the low price, with 1 for the high one, with 31 where the low one is above the high
/// one, then with 2 to 4. A later 6 or 7 is one end's.
///
/// ```
/// use gintubalos::{bid_ask, OptionType::Call, RuleSet};
///
/// let both = bid_ask(9.5, 10.5, 100.0, 95.0, 1.0, Call, 2, RuleSet::Original)?;
/// assert_eq!(both.low?.volatility.to_bits(), 0x3FC6_192C_31EA_4EC4);
/// assert_eq!(both.high?.volatility.to_bits(), 0x3FC9_887E_D415_8FB4);
///
/// let exchanged = bid_ask(10.5, 9.5, 100.0, 95.0, 1.0, Call, 2, RuleSet::Original);
/// assert_eq!(exchanged.unwrap_err().to_string(), "refused with 31: the low price is above the high price");
/// # Ok::<(), gintubalos::Refusal>(())
/// ```
#[allow(clippy::too_many_arguments)]
#[inline]
pub fn bid_ask(
    low_price: f64,
    high_price: f64,
    forward_price: f64,
    strike_price: f64,
    time_to_maturity: f64,
    option_type: OptionType,
    max_iteration: i32,
    rules: RuleSet,
) -> Result<BidAsk, Refusal> {
    let [low, high, forward, strike, expiry] =
        [low_price, high_price, forward_price, strike_price, time_to_maturity].map(f64::to_bits);
    let (kind, rules) = (option_type.byte(), rules.number());
    to_bid_ask(in_default(move || {
        bits::bid_ask_without_trails(low, high, forward, strike, expiry, kind, max_iteration, rules)
    }))
}

/// The same, with each end's steps written to its own lent trail: step i's record is at byte 48 × i, and bytes after the
/// last record stay. After 2 to 4 the whole call is refused with 21 where one of the trails has under 48 × max(limit, 0)
/// bytes. A call that is refused leaves both trails as they were; the records of the completed steps of an end that is
/// refused stand in its trail.
///
/// ```
/// use gintubalos::*;
///
/// let (mut low_trail, mut high_trail) = ([0; 3 * STEP_BYTES], [0; 3 * STEP_BYTES]);
/// let both = bid_ask_with_trails(
///     9.5, 10.5, 100.0, 95.0, 1.0, OptionType::Call, 3, RuleSet::Original, &mut low_trail, &mut high_trail,
/// )?;
/// // With an expiry of 1 the volatility is the last step's s after.
/// let last = |trail, steps| gintubalos::steps(trail, steps).last().expect("a step").s_after;
/// assert_eq!(last(&low_trail, both.low?.steps), both.low?.volatility);
/// assert_eq!(last(&high_trail, both.high?.steps), both.high?.volatility);
/// # Ok::<(), Refusal>(())
/// ```
#[allow(clippy::too_many_arguments)]
#[inline]
pub fn bid_ask_with_trails(
    low_price: f64,
    high_price: f64,
    forward_price: f64,
    strike_price: f64,
    time_to_maturity: f64,
    option_type: OptionType,
    max_iteration: i32,
    rules: RuleSet,
    low_trail: &mut [u8],
    high_trail: &mut [u8],
) -> Result<BidAsk, Refusal> {
    let [low, high, forward, strike, expiry] =
        [low_price, high_price, forward_price, strike_price, time_to_maturity].map(f64::to_bits);
    let (kind, rules) = (option_type.byte(), rules.number());
    to_bid_ask(in_default(move || {
        bits::bid_ask(low, high, forward, strike, expiry, kind, max_iteration, rules, low_trail, high_trail)
    }))
}

/// What the two prices yield with a trail for each.
#[derive(Clone, Debug, PartialEq)]
pub struct BidAskRuns {
    /// The low price's answer and its steps.
    pub low: Run,
    /// The high price's answer and its steps.
    pub high: Run,
}

/// The same with trails of its own, which are as long as the longer run needs and not as the limit would allow. The whole
/// call is refused with 1, 31, 2 to 4, and with 21 where there is no memory for the trails.
///
/// ```
/// use gintubalos::{bid_ask_step_by_step, OptionType::Call, RuleSet};
///
/// let runs = bid_ask_step_by_step(9.5, 10.5, 100.0, 95.0, 1.0, Call, i32::MAX, RuleSet::Original)?;
/// for run in [runs.low, runs.high] {
///     assert_eq!(run.trail.len(), run.answer?.steps as usize);
/// }
/// # Ok::<(), gintubalos::Refusal>(())
/// ```
#[allow(clippy::too_many_arguments)]
pub fn bid_ask_step_by_step(
    low_price: f64,
    high_price: f64,
    forward_price: f64,
    strike_price: f64,
    time_to_maturity: f64,
    option_type: OptionType,
    max_iteration: i32,
    rules: RuleSet,
) -> Result<BidAskRuns, Refusal> {
    // The call without trails gives the numbers of steps; the larger one does for both.
    let first = bid_ask(
        low_price,
        high_price,
        forward_price,
        strike_price,
        time_to_maturity,
        option_type,
        max_iteration,
        rules,
    )?;
    let limit = limit_for(completed_steps(first.low).max(completed_steps(first.high)), max_iteration);
    let (mut low_trail, mut high_trail) = (trail_for(limit), trail_for(limit));
    let both = bid_ask_with_trails(
        low_price,
        high_price,
        forward_price,
        strike_price,
        time_to_maturity,
        option_type,
        limit,
        rules,
        &mut low_trail,
        &mut high_trail,
    )?;
    Ok(BidAskRuns { low: Run::new(both.low, &low_trail), high: Run::new(both.high, &high_trail) })
}
