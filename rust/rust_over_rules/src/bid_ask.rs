//! Document 02's first request, bid and ask together: a low and a high price of one option, each with a result and a trail
//! of its own. Written from its text.

use crate::rule_set::RuleSet;
use crate::solver::{option_number, price_number, solve, trail_number, Market, Run};
use crate::OptionType;

/// What is asked: two prices, and one option that both are prices of.
#[derive(Clone, Copy, Debug)]
pub struct Range {
    pub low: f64,
    pub high: f64,
    pub forward: f64,
    pub strike: f64,
    pub expiry: f64,
    pub kind: OptionType,
}

impl Range {
    /// What the single call is asked for a price.
    fn at(&self, price: f64) -> Market {
        let Range { forward, strike, expiry, kind, .. } = *self;
        Market { price, forward, strike, expiry, kind }
    }

    /// "31, low above high": compared as floats, so that neither zero is above the other.
    fn order_number(&self) -> Option<u8> {
        (self.low > self.high).then_some(31)
    }

    /// "Checks run: 1 for low, 1 for high, 31, then 2, 3, 4, then 21 for the low trail and for the high." 32 is before all.
    fn number(&self, limit: i32, [low_trail, high_trail]: [Option<usize>; 2]) -> Option<u8> {
        price_number(self.low)
            .or(price_number(self.high))
            .or(self.order_number())
            .or(option_number(self.forward, self.strike, self.expiry))
            .or(trail_number(low_trail, limit))
            .or(trail_number(high_trail, limit))
    }
}

/// "two full results, low price first", with trails of so many bytes or without trails. "Once the checks below pass, each
/// end's result and trail must be what the single call gives for that price": a later 6 or 7 is in one end's run, and the
/// other end still runs.
pub fn bid_ask(rule_set: u32, range: Range, limit: i32, trails: Option<[usize; 2]>) -> Result<[Run; 2], u8> {
    let [low_trail, high_trail] = trails.map_or([None; 2], |trails| trails.map(Some));
    RuleSet::unless(rule_set, range.number(limit, [low_trail, high_trail]))?;
    let run = |price, trail| solve(rule_set, range.at(price), limit, trail);
    Ok([run(range.low, low_trail), run(range.high, high_trail)])
}
