//! Bid and ask together beside the Rust's solve under document 02's checks: the number, both volatilities and outcomes, and
//! every byte of both trails; and how often each case was met that is to show a fault.

use crate::{
    caps::{place, Place},
    causes::{self, is_refused, is_unknown},
    pairs::{combinations, fixed_pairs, is_bounded_pair, pairs_by_the_caps, with_causes, Call},
    rule_sets::UNKNOWN,
    solves::{answer, first_difference, pattern, refused, room, text, BID_ASK, BID_ASK_WITHOUT_TRAILS, LIMITS},
    tally::Tally,
};
use gintubalos::bits as ours;
use random_words::Words;
use rust_over_rules::{
    bid_ask::bid_ask,
    book::{kind_of, write_trail, STEP},
    solver::is_long_enough,
};

/// The number that refuses the call, 0 for none, and each end's volatility and outcome.
type Answer = (u8, [(u64, u64); 2]);

/// Both trails' bytes before the call, which differ at each place, so that exchanged trails show.
fn trails_before(call: Call) -> [Vec<u8>; 2] {
    let [low, high] = call.trails.unwrap_or_default();
    [pattern(low), pattern(high).into_iter().map(|byte| !byte).collect()]
}

fn ours(call: Call, [low_trail, high_trail]: &mut [Vec<u8>; 2]) -> Answer {
    let [low, high, forward, strike, expiry] = call.pair.floats;
    let (kind, limit, rule_set) = (call.pair.kind, call.limit, call.pair.rule_set);
    match call.trails {
        Some(_) => ours::bid_ask(low, high, forward, strike, expiry, kind, limit, rule_set, low_trail, high_trail),
        None => ours::bid_ask_without_trails(low, high, forward, strike, expiry, kind, limit, rule_set),
    }
}

fn rust(call: Call, trails: &mut [Vec<u8>; 2]) -> Answer {
    match call.pair.range().and_then(|range| bid_ask(call.pair.rule_set, range, call.limit, call.trails)) {
        Ok(runs) => {
            if call.trails.is_some() {
                runs.iter().zip(trails).for_each(|(run, trail)| write_trail(&run.steps, trail));
            }
            (0, runs.each_ref().map(answer))
        }
        Err(number) => (number, [refused(number); 2]),
    }
}

fn text_of((number, ends): Answer) -> String {
    let [low, high] = ends.map(text);
    format!("{number}, low {low}, high {high}")
}

pub fn compare(tally: &mut Tally, call: Call) {
    let (mut trails, mut expected_trails) = (trails_before(call), trails_before(call));
    let found = ours(call, &mut trails);
    let expected = rust(call, &mut expected_trails);
    count_cases(tally, &Compared::new(call, expected));
    tally.count(found == expected && trails == expected_trails, || {
        let name = if call.trails.is_some() { BID_ASK } else { BID_ASK_WITHOUT_TRAILS };
        let (found, expected) = (text_of(found), text_of(expected));
        let bytes = [("low", 0), ("high", 1)].map(|(end, i)| match first_difference(&trails[i], &expected_trails[i]) {
            same if same.is_empty() => same,
            byte => format!("; {end} trail{byte}"),
        });
        format!("{name}({}): {found}, the Rust has {expected}{}", call.text(), bytes.concat())
    });
}

// ---- the cases

/// What refuses a call, in the order of the checks. 24 is the archive's own.
const CHECKS: [&str; 10] =
    ["32", "24", "1 for low", "1 for high", "31", "2", "3", "4", "21 for the low trail", "21 for the high trail"];

fn checks(with_trails: bool) -> &'static [&'static str] {
    &CHECKS[..if with_trails { 10 } else { 8 }]
}

/// All that would refuse the call if it were looked for alone, in the same order.
fn causes_of(call: Call) -> Vec<&'static str> {
    let [low, high, forward, strike, expiry] = call.pair.floats.map(f64::from_bits);
    let [low_trail, high_trail] = call.trails.map_or([usize::MAX; 2], |trails| trails);
    let found = [
        is_unknown(call.pair.rule_set),
        kind_of(call.pair.kind).is_none(),
        !low.is_finite(),
        !high.is_finite(),
        low > high,
        is_refused(forward),
        is_refused(strike),
        is_refused(expiry),
        !is_long_enough(low_trail, call.limit),
        !is_long_enough(high_trail, call.limit),
    ];
    causes::found(CHECKS, found)
}

/// What an end's answer is.
#[derive(Clone, Copy, PartialEq, Eq)]
enum End {
    BelowIntrinsic,
    AboveMaximum,
    SevenWithoutAStep,
    SevenAfterSteps,
    Other,
}

impl End {
    fn new((volatility, outcome): (u64, u64)) -> End {
        let (volatility, outcome) = (f64::from_bits(volatility), ours::Outcome::from(outcome));
        match (outcome.number, outcome.branch) {
            (7, _) if outcome.steps == 0 => End::SevenWithoutAStep,
            (7, _) => End::SevenAfterSteps,
            (0, 0) if volatility < 0.0 => End::BelowIntrinsic,
            (0, 0) if volatility > 0.0 => End::AboveMaximum,
            _ => End::Other,
        }
    }

    fn is_seven(self) -> bool {
        matches!(self, End::SevenWithoutAStep | End::SevenAfterSteps)
    }
}

/// A call and what the Rust has for it.
struct Compared {
    low: f64,
    high: f64,
    limit: i32,
    /// How many bytes each trail has above what the limit needs.
    spare: Option<(i64, i64)>,
    causes: Vec<&'static str>,
    ends: [End; 2],
    rule_set: u32,
    /// Where each price lies by the two caps.
    places: [Option<Place>; 2],
}

impl Compared {
    fn new(call: Call, (_, ends): Answer) -> Compared {
        let [low, high, ..] = call.pair.floats.map(f64::from_bits);
        let need = STEP as i64 * i64::from(call.limit.max(0));
        let spare = call.trails.map(|[low, high]| (low as i64 - need, high as i64 - need));
        Compared {
            low,
            high,
            limit: call.limit,
            spare,
            causes: causes_of(call),
            ends: ends.map(End::new),
            rule_set: call.pair.rule_set,
            places: call.pair.ends().map(place),
        }
    }

    fn has_prices(&self, low: f64, high: f64) -> bool {
        [self.low, self.high].map(f64::to_bits) == [low, high].map(f64::to_bits)
    }

    /// Whether this is the rule set, and the prices lie there.
    fn has_places(&self, rule_set: u32, low: Place, high: Place) -> bool {
        self.rule_set == rule_set && self.places == [Some(low), Some(high)]
    }

    /// Whether one end meets this, 7 without a step or after some, and the other end no 7.
    fn has_seven_at(&self, end: usize, seven: End) -> bool {
        self.ends[end] == seven && !self.ends[1 - end].is_seven()
    }
}

type Case = (&'static str, fn(&Compared) -> bool);

/// Of calls that are answered.
const ANSWERED: [Case; 22] = [
    ("equal prices", |call| call.has_prices(call.low, call.low)),
    ("neighbours by one float", |call| call.low < call.high && call.low.next_up() == call.high),
    ("-0 and +0", |call| call.has_prices(-0.0, 0.0)),
    ("+0 and -0", |call| call.has_prices(0.0, -0.0)),
    ("low below intrinsic, high not", |call| call.ends[0] == End::BelowIntrinsic && call.ends[1] != call.ends[0]),
    ("high above maximum, low not", |call| call.ends[1] == End::AboveMaximum && call.ends[0] != call.ends[1]),
    ("7 at low without a step, none at high", |call| call.has_seven_at(0, End::SevenWithoutAStep)),
    ("7 at low after steps, none at high", |call| call.has_seven_at(0, End::SevenAfterSteps)),
    ("7 at high without a step, none at low", |call| call.has_seven_at(1, End::SevenWithoutAStep)),
    ("7 at high after steps, none at low", |call| call.has_seven_at(1, End::SevenAfterSteps)),
    ("7 at both", |call| call.ends.into_iter().all(End::is_seven)),
    ("limit i32::MIN", |call| call.limit == i32::MIN),
    ("limit below 0, not i32::MIN", |call| call.limit < 0 && call.limit != i32::MIN),
    ("limit 0", |call| call.limit == 0),
    ("rule set 0, both below both caps", |call| call.has_places(0, Place::BelowBoth, Place::BelowBoth)),
    ("rule set 0, low below both caps, high between", |call| call.has_places(0, Place::BelowBoth, Place::Between)),
    ("rule set 0, both between the caps", |call| call.has_places(0, Place::Between, Place::Between)),
    ("rule set 0, low between the caps, high above both", |call| call.has_places(0, Place::Between, Place::AboveBoth)),
    ("rule set 1, both below both caps", |call| call.has_places(1, Place::BelowBoth, Place::BelowBoth)),
    ("rule set 1, low below both caps, high between", |call| call.has_places(1, Place::BelowBoth, Place::Between)),
    ("rule set 1, both between the caps", |call| call.has_places(1, Place::Between, Place::Between)),
    ("rule set 1, low between the caps, high above both", |call| call.has_places(1, Place::Between, Place::AboveBoth)),
];

/// Of calls that nothing refuses, or 21 alone.
const WITH_TRAILS: [Case; 8] = [
    ("low trail one byte short, high not short", |call| matches!(call.spare, Some((-1, 0..)))),
    ("high trail one byte short, low not short", |call| matches!(call.spare, Some((0.., -1)))),
    ("both trails one byte short", |call| call.spare == Some((-1, -1))),
    ("both trails exactly long enough", |call| call.limit > 0 && call.spare == Some((0, 0))),
    ("low trail longer", |call| matches!(call.spare, Some((1.., 0)))),
    ("high trail longer", |call| matches!(call.spare, Some((0, 1..)))),
    ("both trails longer", |call| matches!(call.spare, Some((1.., 1..)))),
    ("limit i32::MAX, which no trail has room for", |call| call.limit == i32::MAX),
];

/// Of calls that nothing refuses.
const WITHOUT_TRAILS: [Case; 1] = [("limit i32::MAX", |call| call.limit == i32::MAX)];

fn by_trails(with_trails: bool) -> &'static [Case] {
    if with_trails {
        &WITH_TRAILS
    } else {
        &WITHOUT_TRAILS
    }
}

fn count_cases(tally: &mut Tally, call: &Compared) {
    tally.meet_causes(&call.causes);
    let mut add = |name| tally.meet(name, "");
    if call.causes.is_empty() {
        ANSWERED.iter().filter(|(_, is_met)| is_met(call)).for_each(|(name, _)| add(name));
    }
    if call.causes.iter().all(|cause| cause.starts_with("21")) {
        let cases = by_trails(call.spare.is_some());
        cases.iter().filter(|(_, is_met)| is_met(call)).for_each(|(name, _)| add(name));
    }
}

/// Prints how many calls met each case, and gives the cases that none met.
pub fn report(tally: &Tally, with_trails: bool) -> Vec<String> {
    let missing = tally.report_checks(checks(with_trails), |_, _| true);
    let cases = ANSWERED.iter().chain(by_trails(with_trails)).map(|(name, _)| *name);
    [missing, tally.report_cases("calls that no check refuses, or 21 alone:", cases)].concat()
}

// ---- fixed calls

pub fn edges(tally: &mut Tally, rule_set: u32) {
    combinations(|pair| {
        let pair = pair.under(rule_set);
        for (limit, trails) in [(2, [96, 96]), (2, [95, 96]), (2, [96, 95]), (0, [0, 0]), (i32::MAX, [48, 48])] {
            compare(tally, Call { pair, limit, trails: Some(trails) });
        }
    });
    for pair in pairs_by_the_caps() {
        for limit in LIMITS {
            compare(tally, Call { pair: pair.under(rule_set), limit, trails: Some([room(limit); 2]) });
        }
    }
    for pair in fixed_pairs() {
        let pair = pair.under(rule_set);
        for limit in LIMITS {
            compare(tally, Call { pair, limit, trails: Some([room(limit); 2]) });
        }
        for limit in [1, 20] {
            let lengths = [0, room(limit) - 1, room(limit), room(limit) + STEP + 7];
            for trails in lengths.into_iter().flat_map(|low| lengths.map(|high| [low, high])) {
                compare(tally, Call { pair, limit, trails: Some(trails) });
            }
        }
    }
}

/// A limit of many millions is only where both runs end for another cause.
pub fn edges_without_trails(tally: &mut Tally, rule_set: u32) {
    combinations(|pair| compare(tally, Call { pair: pair.under(rule_set), limit: 2, trails: None }));
    for pair in fixed_pairs().into_iter().chain(pairs_by_the_caps()) {
        let pair = pair.under(rule_set);
        for limit in LIMITS.into_iter().filter(|limit| is_bounded_pair(pair, *limit)) {
            compare(tally, Call { pair, limit, trails: None });
        }
    }
}

/// Every set of causes, and under unknown rule sets what would be answered under a known one.
fn refused_edges(mut each: impl FnMut(Call)) {
    let mut words = Words::new(1, "refused calls of bid and ask", 0);
    for set in 0..1 << CHECKS.len() {
        (0..8).for_each(|_| each(with_causes(&mut words, |cause| set >> cause & 1 == 1)));
    }
    for rule_set in UNKNOWN {
        for pair in pairs_by_the_caps() {
            each(Call { pair: pair.under(rule_set), limit: 2, trails: Some([96, 96]) });
        }
    }
}

pub fn refused_calls(tally: &mut Tally) {
    refused_edges(|call| compare(tally, call));
}

pub fn refused_calls_without_trails(tally: &mut Tally) {
    refused_edges(|call| compare(tally, Call { trails: None, ..call }));
}

#[cfg(test)]
mod tests {
    use super::*;
    use crate::{pairs::random_call, rule_sets::KNOWN};

    /// What refuses a call in the reference is the first of its causes.
    #[test]
    fn the_first_cause_refuses() {
        if rust_over_rules::SOURCE.is_none() {
            return;
        }
        let mut words = Words::new(1, BID_ASK, 0);
        for _ in 0..100_000 {
            let call = random_call(&mut words);
            let (number, _) = rust(call, &mut trails_before(call));
            let first = causes_of(call).first().map_or("0", |cause| cause);
            assert_eq!(first.split(' ').next(), Some(number.to_string().as_str()), "{}", call.text());
        }
    }

    /// The fixed calls alone meet every case.
    #[test]
    fn edges_meet_every_case() {
        if rust_over_rules::SOURCE.is_none() {
            return;
        }
        let [mut with, mut without] = [Tally::default(), Tally::default()];
        for rule_set in KNOWN {
            edges(&mut with, rule_set);
            edges_without_trails(&mut without, rule_set);
        }
        refused_calls(&mut with);
        refused_calls_without_trails(&mut without);
        assert!(report(&with, true).is_empty());
        assert!(report(&without, false).is_empty());
    }
}
