//! solve: with any limit, and with its steps; its loop's target; the original library's functions, and the Black price.

use crate::{bits, environment::in_default, Branch, Ending, OptionType, Refusal, RuleSet, Sentinel};

/// The bytes of a step's record in a trail.
pub const STEP_BYTES: usize = 48;

/// What a solve yields.
#[derive(Clone, Copy, Debug, PartialEq)]
pub struct Solution {
    /// The volatility. In branch 0: −f64::MAX for a price below the intrinsic value; f64::MAX, over √expiry where it is found
    /// after normalising, for one at or above the rule set's cap; 0 for the intrinsic value itself.
    pub volatility: f64,
    /// The branch that gave it.
    pub branch: Branch,
    /// What ended it.
    pub ending: Ending,
    /// The number of completed steps.
    pub steps: u32,
}

impl Solution {
    /// What the volatility stands for where none is meant.
    ///
    /// ```
    /// use gintubalos::{solve, OptionType::Call, RuleSet, Sentinel};
    ///
    /// let below = solve(99.0, 200.0, 100.0, 1.0, Call, 2, RuleSet::Original)?;
    /// assert_eq!(below.sentinel(), Some(Sentinel::BelowIntrinsic));
    /// assert_eq!(solve(10.0, 100.0, 95.0, 1.0, Call, 2, RuleSet::Original)?.sentinel(), None);
    /// # Ok::<(), gintubalos::Refusal>(())
    /// ```
    pub fn sentinel(&self) -> Option<Sentinel> {
        Sentinel::of(self.branch, self.volatility)
    }
}

/// A completed step: a record of the trail. Its prices and ends are the loop's own, for an option that is out of the money
/// and normalised: b is the price over √forward × √strike, and s the volatility times √expiry.
#[derive(Clone, Copy, Debug, PartialEq)]
pub struct Step {
    /// The s that the step started from.
    pub s: f64,
    /// The price b computed at s.
    pub price: f64,
    /// The vega at s.
    pub vega: f64,
    /// The left end after the move.
    pub left: f64,
    /// The right end after the move.
    pub right: f64,
    /// The s that the step leaves.
    pub s_after: f64,
}

impl Step {
    /// A record of a trail: six floats, little-endian.
    ///
    /// ```
    /// let mut record = [0; gintubalos::STEP_BYTES];
    /// record[8..16].copy_from_slice(&0.25f64.to_le_bytes());
    /// assert_eq!(gintubalos::Step::from_bytes(&record).price, 0.25);
    /// ```
    pub fn from_bytes(record: &[u8; STEP_BYTES]) -> Step {
        let at = |i: usize| f64::from_le_bytes(std::array::from_fn(|j| record[8 * i + j]));
        Step { s: at(0), price: at(1), vega: at(2), left: at(3), right: at(4), s_after: at(5) }
    }
}

/// What the archive answers in two words.
#[inline]
pub(crate) fn to_solution((volatility, outcome): (u64, u64)) -> Result<Solution, Refusal> {
    let bits::Outcome { number, branch, ending, steps } = outcome.into();
    match number {
        0 => Ok(Solution {
            volatility: f64::from_bits(volatility),
            branch: Branch::from_byte(branch).expect("proved: 0 to 5"),
            ending: Ending::from_byte(ending).expect("proved: 0 to 2"),
            steps,
        }),
        number => Err(Refusal { number, steps }),
    }
}

/// The implied volatility of a price, after two steps at most: the original library's function, with its rules. Refused with
/// 1 to 4, then 6 or 7.
///
/// ```
/// use gintubalos::{implied_volatility_from_a_transformed_rational_guess, OptionType};
///
/// let volatility =
///     implied_volatility_from_a_transformed_rational_guess(10.0, 100.0, 95.0, 1.0, OptionType::Call)?;
/// assert_eq!(volatility.to_bits(), 0x3FC7_D1E8_57E3_FCEB);
/// # Ok::<(), gintubalos::Refusal>(())
/// ```
#[inline]
pub fn implied_volatility_from_a_transformed_rational_guess(
    market_price: f64,
    forward_price: f64,
    strike_price: f64,
    time_to_maturity: f64,
    option_type: OptionType,
) -> Result<f64, Refusal> {
    let [price, forward, strike, expiry] =
        [market_price, forward_price, strike_price, time_to_maturity].map(f64::to_bits);
    let (kind, rules) = (option_type.byte(), RuleSet::Original.number());
    to_solution(in_default(move || {
        bits::implied_volatility_from_a_transformed_rational_guess(price, forward, strike, expiry, kind, rules)
    }))
    .map(|solution| solution.volatility)
}

/// [`solve`] under [`RuleSet::Original`], by the original library's name.
///
/// ```
/// use gintubalos::{
///     implied_volatility_from_a_transformed_rational_guess_with_limited_iterations as limited, solve, OptionType::Call,
///     RuleSet,
/// };
///
/// let of_the_original = limited(120.0, 200.0, 100.0, 1.0, Call, 1);
/// assert_eq!(of_the_original, solve(120.0, 200.0, 100.0, 1.0, Call, 1, RuleSet::Original));
/// ```
#[inline]
pub fn implied_volatility_from_a_transformed_rational_guess_with_limited_iterations(
    market_price: f64,
    forward_price: f64,
    strike_price: f64,
    time_to_maturity: f64,
    option_type: OptionType,
    max_iteration: i32,
) -> Result<Solution, Refusal> {
    solve(market_price, forward_price, strike_price, time_to_maturity, option_type, max_iteration, RuleSet::Original)
}

/// The implied volatility after `max_iteration` steps at most, with branch, ending and steps. A limit of 0 or less takes no
/// step. Refused with 1 to 4, then 6 or 7.
///
/// ```
/// use gintubalos::{solve, Branch, Ending, OptionType, RuleSet};
///
/// let solution = solve(10.0, 100.0, 95.0, 1.0, OptionType::Call, 1, RuleSet::Original)?;
/// assert_eq!((solution.branch, solution.ending, solution.steps), (Branch::LowerMiddle, Ending::Limit, 1));
/// # Ok::<(), gintubalos::Refusal>(())
/// ```
#[inline]
pub fn solve(
    market_price: f64,
    forward_price: f64,
    strike_price: f64,
    time_to_maturity: f64,
    option_type: OptionType,
    max_iteration: i32,
    rules: RuleSet,
) -> Result<Solution, Refusal> {
    let [price, forward, strike, expiry] =
        [market_price, forward_price, strike_price, time_to_maturity].map(f64::to_bits);
    let (kind, rules) = (option_type.byte(), rules.number());
    to_solution(in_default(move || {
        bits::solve_without_trail(price, forward, strike, expiry, kind, max_iteration, rules)
    }))
}

/// The same, with its steps written to the lent trail: step i's record is at byte 48 × i, and bytes after the last record
/// stay. Refused with 1 to 4, with 21 where the trail has under 48 × max(limit, 0) bytes, then 6 or 7; the records of a
/// refusal's completed steps stand in the trail.
///
/// ```
/// use gintubalos::*;
///
/// let mut trail = [0; 3 * STEP_BYTES];
/// let solution =
///     solve_with_trail(10.0, 100.0, 95.0, 1.0, OptionType::Call, 3, RuleSet::Original, &mut trail)?;
/// // With an expiry of 1 the volatility is the last step's s after.
/// let last = steps(&trail, solution.steps).last().expect("a step");
/// assert_eq!(last.s_after, solution.volatility);
/// # Ok::<(), Refusal>(())
/// ```
#[allow(clippy::too_many_arguments)]
#[inline]
pub fn solve_with_trail(
    market_price: f64,
    forward_price: f64,
    strike_price: f64,
    time_to_maturity: f64,
    option_type: OptionType,
    max_iteration: i32,
    rules: RuleSet,
    trail: &mut [u8],
) -> Result<Solution, Refusal> {
    let [price, forward, strike, expiry] =
        [market_price, forward_price, strike_price, time_to_maturity].map(f64::to_bits);
    let (kind, rules) = (option_type.byte(), rules.number());
    to_solution(in_default(move || {
        bits::solve_with_trail(price, forward, strike, expiry, kind, max_iteration, rules, trail)
    }))
}

/// The first `count` records of a trail, or as many as it has.
///
/// ```
/// assert_eq!(gintubalos::steps(&[0; 100], 5).count(), 2);
/// ```
pub fn steps(trail: &[u8], count: u32) -> impl Iterator<Item = Step> + '_ {
    trail.as_chunks().0.iter().take(count as usize).map(Step::from_bytes)
}

/// The completed steps of an answer or of a refusal: as many records stand in its trail.
///
/// ```
/// use gintubalos::{completed_steps, Refusal};
///
/// assert_eq!(completed_steps(Err(Refusal { number: 7, steps: 3 })), 3);
/// ```
pub fn completed_steps(answer: Result<Solution, Refusal>) -> u32 {
    answer.map_or_else(|refusal| refusal.steps, |solution| solution.steps)
}

/// What a solve with a trail yields.
#[derive(Clone, Debug, PartialEq)]
pub struct Run {
    /// The answer, or the refusal.
    pub answer: Result<Solution, Refusal>,
    /// Its completed steps, also where 7 came inside the loop.
    pub trail: Vec<Step>,
}

impl Run {
    /// An answer with the records that it has left in its trail.
    pub(crate) fn new(answer: Result<Solution, Refusal>, trail: &[u8]) -> Run {
        Run { answer, trail: steps(trail, completed_steps(answer)).collect() }
    }
}

/// The limit for a run whose number of steps is known. One more than that, within the caller's limit, has by demand 3 the
/// same records and the same answer.
pub(crate) fn limit_for(completed: u32, max_iteration: i32) -> i32 {
    max_iteration.min(i32::try_from(completed).map_or(i32::MAX, |steps| steps.saturating_add(1)))
}

/// A trail that is long enough for a limit, or an empty one where there is no memory for it: then the call refuses with 21.
pub(crate) fn trail_for(limit: i32) -> Vec<u8> {
    let bytes = STEP_BYTES.saturating_mul(usize::try_from(limit).unwrap_or(0));
    let mut trail = Vec::new();
    if trail.try_reserve_exact(bytes).is_ok() {
        trail.resize(bytes, 0);
    }
    trail
}

/// The same with a trail of its own, which is as long as the run needs and not as its limit would allow; a run that never
/// meets its test needs 48 bytes for each step of its limit. Refused with 1 to 4, then 6 or 7, and with 21 where there is
/// no memory for the trail.
///
/// ```
/// use gintubalos::{solve_step_by_step, OptionType, RuleSet};
///
/// let run = solve_step_by_step(10.0, 100.0, 95.0, 1.0, OptionType::Call, i32::MAX, RuleSet::Original);
/// assert_eq!(run.trail.len(), run.answer?.steps as usize);
/// // Each step starts where the one before it ended.
/// assert!(run.trail.windows(2).all(|pair| pair[0].s_after == pair[1].s));
/// # Ok::<(), gintubalos::Refusal>(())
/// ```
pub fn solve_step_by_step(
    market_price: f64,
    forward_price: f64,
    strike_price: f64,
    time_to_maturity: f64,
    option_type: OptionType,
    max_iteration: i32,
    rules: RuleSet,
) -> Run {
    // The run without a trail gives the number of steps. Under the same rules the other one has as many.
    let first = solve(market_price, forward_price, strike_price, time_to_maturity, option_type, max_iteration, rules);
    let limit = limit_for(completed_steps(first), max_iteration);
    let mut trail = trail_for(limit);
    let answer = solve_with_trail(
        market_price,
        forward_price,
        strike_price,
        time_to_maturity,
        option_type,
        limit,
        rules,
        &mut trail,
    );
    Run::new(answer, &trail)
}

/// The price that the loop seeks, out of the money and normalised: the target of its steps' prices. None where the answer
/// comes without a loop. Refused with 1 to 4, then 6 or 7.
///
/// ```
/// use gintubalos::{solve_step_by_step, target, OptionType::{Call, Put}, RuleSet};
///
/// let run = solve_step_by_step(10.0, 100.0, 95.0, 1.0, Call, 9, RuleSet::Original);
/// let sought = target(10.0, 100.0, 95.0, 1.0, Call, RuleSet::Original)?.expect("a loop");
/// assert!((run.trail[2].price - sought).abs() < 1e-16);
/// assert_eq!(target(0.0, 100.0, 95.0, 1.0, Put, RuleSet::Original)?, None);
/// # Ok::<(), gintubalos::Refusal>(())
/// ```
#[inline]
pub fn target(
    market_price: f64,
    forward_price: f64,
    strike_price: f64,
    time_to_maturity: f64,
    option_type: OptionType,
    rules: RuleSet,
) -> Result<Option<f64>, Refusal> {
    let [price, forward, strike, expiry] =
        [market_price, forward_price, strike_price, time_to_maturity].map(f64::to_bits);
    match in_default(move || bits::target(price, forward, strike, expiry, option_type.byte(), rules.number())) {
        (target, 0) => Ok(Some(f64::from_bits(target)).filter(|target| !target.is_nan())),
        (_, number) => Err(Refusal { number, steps: 0 }),
    }
}

/// The Black price of a European option on a future: the original library's function. Refused with 2, 3, 5 or 4 for an input
/// that has no price, with 7 at the asymptotic region's edge.
///
/// ```
/// use gintubalos::{black, OptionType};
///
/// let price = black(100.0, 95.0, 0.2, 1.0, OptionType::Call)?;
/// assert_eq!(price.to_bits(), 0x4025_0A01_494A_D7E2);
/// # Ok::<(), gintubalos::Refusal>(())
/// ```
#[inline]
pub fn black(
    forward_price: f64,
    strike_price: f64,
    sigma: f64,
    time_to_maturity: f64,
    option_type: OptionType,
) -> Result<f64, Refusal> {
    let [forward, strike, sigma, expiry] = [forward_price, strike_price, sigma, time_to_maturity].map(f64::to_bits);
    match in_default(move || bits::black(forward, strike, sigma, expiry, option_type.byte())) {
        (price, 0) => Ok(f64::from_bits(price)),
        (_, number) => Err(Refusal { number, steps: 0 }),
    }
}
