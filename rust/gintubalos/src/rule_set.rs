//! The rule sets that a volatility is worked out under.

use crate::Refusal;
use std::fmt;

/// The rules that a volatility is worked out under, with the numbers that the archive has for them. They differ in the cap
/// alone: from that price on the answer is the above-maximum sentinel.
///
/// The student's Call at 120, forward 200, strike 100, with a year to go, is above the original library's maximum, and has
/// a volatility by the course book:
///
/// ```
/// use gintubalos::{solve, Branch, Ending, OptionType::Call, RuleSet, Sentinel};
///
/// let under = |rules| solve(120.0, 200.0, 100.0, 1.0, Call, 2, rules);
/// assert_eq!(under(RuleSet::Original)?.sentinel(), Some(Sentinel::AboveMaximum));
///
/// let solution = under(RuleSet::TextbookCaps)?;
/// assert_eq!(solution.volatility.to_bits(), 0x3FF0_61F7_B1DA_C668);
/// assert_eq!((solution.branch, solution.ending, solution.steps), (Branch::LowerMiddle, Ending::Limit, 2));
/// # Ok::<(), gintubalos::Refusal>(())
/// ```
#[derive(Clone, Copy, Debug, Default, PartialEq, Eq, Hash)]
#[non_exhaustive]
#[repr(u32)]
pub enum RuleSet {
    /// The original library's rules: a Call is capped at the strike, a Put at the forward.
    #[default]
    Original = 0,
    /// The textbook's caps: a Call is capped at the forward, a Put at the strike. All else is the original library's.
    TextbookCaps = 1,
}

impl RuleSet {
    /// Every rule set, in the order of their numbers.
    pub const ALL: &[RuleSet] = &[RuleSet::Original, RuleSet::TextbookCaps];

    /// The rule set's number.
    ///
    /// ```
    /// assert_eq!(gintubalos::RuleSet::TextbookCaps.number(), 1);
    /// ```
    pub const fn number(self) -> u32 {
        self as u32
    }
}

/// The rule set that has this number. Refused with 32.
///
/// ```
/// use gintubalos::RuleSet;
///
/// assert_eq!(RuleSet::try_from(1), Ok(RuleSet::TextbookCaps));
/// assert_eq!(RuleSet::try_from(2).unwrap_err().to_string(), "refused with 32: the rule set is unknown");
/// ```
impl TryFrom<u32> for RuleSet {
    type Error = Refusal;

    fn try_from(number: u32) -> Result<RuleSet, Refusal> {
        let known = RuleSet::ALL.iter().copied().find(|rules| rules.number() == number);
        known.ok_or(Refusal { number: 32, steps: 0 })
    }
}

impl fmt::Display for RuleSet {
    fn fmt(&self, f: &mut fmt::Formatter) -> fmt::Result {
        f.pad(match self {
            RuleSet::Original => "the original library's rules",
            RuleSet::TextbookCaps => "the textbook's caps",
        })
    }
}
