//! Bid and ask together: document 02's order of checks, what a refusal leaves, and that each end is the single call's under
//! each rule set.

use gintubalos::{
    bits::{self, Outcome},
    OptionType::{Call, Put},
    RuleSet::Original,
    *,
};

const NAN_BITS: u64 = 0x7FF8_0000_0000_0000;

/// Two steps' records, each byte of which shows if it is written.
const UNTOUCHED: [u8; 96] = [0xA5; 96];

/// A Put whose price is refused with 7 after two completed steps; half and twice the price are not refused.
const SEVEN: [u64; 4] = [0x4550_E417_AF0E_EA91, 0x4E1F_18AE_9C13_9E20, 0x4A09_6A15_88E9_6C2D, 0x404A_BD6F_0369_6393];

/// Low and high price, forward, strike and expiry.
type Range = [f64; 5];

fn seven(low_times: f64, high_times: f64) -> Range {
    let [price, forward, strike, expiry] = SEVEN.map(f64::from_bits);
    [low_times * price, high_times * price, forward, strike, expiry]
}

/// Each end has the words and every byte of the trail that the single call gives, and without trails the same words.
fn words_of_single_calls(range: Range, kind: OptionType, limit: i32, rules: RuleSet) -> [Outcome; 2] {
    let [low, high, forward, strike, expiry] = range.map(f64::to_bits);
    let (kind, rules) = (kind.byte(), rules.number());
    let fresh = vec![0xA5; STEP_BYTES * limit.max(0) as usize + 1];
    let (mut low_trail, mut high_trail) = (fresh.clone(), fresh.clone());
    let (number, ends) =
        bits::bid_ask(low, high, forward, strike, expiry, kind, limit, rules, &mut low_trail, &mut high_trail);
    assert_eq!(number, 0, "{range:?}");
    for (price, end, trail) in [(low, ends[0], low_trail), (high, ends[1], high_trail)] {
        let mut single = fresh.clone();
        let words = bits::solve_with_trail(price, forward, strike, expiry, kind, limit, rules, &mut single);
        assert_eq!(end, words, "{range:?}");
        assert_eq!(trail, single, "{range:?}");
    }
    let untrailed = bits::bid_ask_without_trails(low, high, forward, strike, expiry, kind, limit, rules);
    assert_eq!(untrailed, (0, ends), "{range:?}");
    ends.map(|(_, outcome)| outcome.into())
}

/// The same with the types of Rust.
fn answers_of_single_calls(range: Range, kind: OptionType, limit: i32, rules: RuleSet) {
    let [low, high, forward, strike, expiry] = range;
    let single = |price| solve(price, forward, strike, expiry, kind, limit, rules);
    let both = Ok(BidAsk { low: single(low), high: single(high) });
    assert_eq!(bid_ask(low, high, forward, strike, expiry, kind, limit, rules), both);
    let run = |price| solve_step_by_step(price, forward, strike, expiry, kind, limit, rules);
    let runs = BidAskRuns { low: run(low), high: run(high) };
    let bytes = STEP_BYTES * limit.max(0) as usize;
    let (mut low_trail, mut high_trail) = (vec![0; bytes], vec![0; bytes]);
    let trailed =
        bid_ask_with_trails(low, high, forward, strike, expiry, kind, limit, rules, &mut low_trail, &mut high_trail);
    assert_eq!(trailed, both);
    for (run, trail) in [(&runs.low, &low_trail), (&runs.high, &high_trail)] {
        assert!(steps(trail, completed_steps(run.answer)).eq(run.trail.iter().copied()));
    }
    assert_eq!(bid_ask_step_by_step(low, high, forward, strike, expiry, kind, limit, rules), Ok(runs));
}

#[test]
fn each_end_is_the_single_calls() {
    for (range, kind) in [
        ([9.5, 10.5, 100.0, 95.0, 1.0], Call),
        // In the lower loop and in the upper one.
        ([0.001, 99.0, 100.0, 110.0, 1.0], Call),
        // One that meets its test, and one that never does.
        ([1.0, 60.0, 100.0, 110.0, 2.0], Call),
        // Equal, and zeros of either sign.
        ([10.0, 10.0, 100.0, 95.0, 1.0], Put),
        ([-0.0, 0.0, 100.0, 100.0, 1.0], Put),
        ([0.0, -0.0, 100.0, 100.0, 1.0], Put),
        // Below the intrinsic value at one end, at or above the maximum at the other, and both.
        ([4.0, 10.0, 100.0, 95.0, 1.0], Call),
        ([10.0, 95.0, 100.0, 95.0, 1.0], Call),
        ([-f64::MAX, f64::MAX, 100.0, 200.0, 0.25], Call),
        // Below both rule sets' caps, and between them.
        ([99.0, 120.0, 200.0, 100.0, 1.0], Call),
        ([110.0, 120.0, 100.0, 200.0, 1.0], Put),
        // 7 at one end, and at both.
        (seven(0.5, 1.0), Put),
        (seven(1.0, 2.0), Put),
        (seven(1.0, 1.0), Put),
    ] {
        for limit in [i32::MIN, 0, 1, 2, 20] {
            for rules in RuleSet::ALL.iter().copied() {
                words_of_single_calls(range, kind, limit, rules);
                answers_of_single_calls(range, kind, limit, rules);
            }
        }
    }
}

/// What stands for no volatility is an answer like any other.
#[test]
fn sentinels() {
    let sentinel = |answer: Result<Solution, Refusal>| answer.map(|solution| solution.sentinel());
    let ends = |low, high| {
        let both = bid_ask(low, high, 100.0, 95.0, 1.0, Call, 2, Original).expect("two ends");
        (sentinel(both.low), sentinel(both.high))
    };
    assert_eq!(ends(4.0, 10.0), (Ok(Some(Sentinel::BelowIntrinsic)), Ok(None)));
    assert_eq!(ends(10.0, 95.0), (Ok(None), Ok(Some(Sentinel::AboveMaximum))));
}

/// A 7 is its own end's, after its completed steps, and the other end has its whole answer.
#[test]
fn seven_at_one_end() {
    let number_and_steps = |ends: [Outcome; 2]| ends.map(|end| (end.number, end.steps));
    assert_eq!(number_and_steps(words_of_single_calls(seven(0.5, 1.0), Put, 20, Original)), [(0, 5), (7, 2)]);
    assert_eq!(number_and_steps(words_of_single_calls(seven(1.0, 2.0), Put, 20, Original)), [(7, 2), (0, 3)]);
    assert_eq!(number_and_steps(words_of_single_calls(seven(1.0, 1.0), Put, 20, Original)), [(7, 2), (7, 2)]);
    let [low, high, forward, strike, expiry] = seven(1.0, 2.0);
    let runs = bid_ask_step_by_step(low, high, forward, strike, expiry, Put, 20, Original).expect("two ends");
    assert_eq!((runs.low.answer, runs.low.trail.len()), (Err(Refusal { number: 7, steps: 2 }), 2));
    assert_eq!(runs.high.trail.len(), 3);
}

/// What a call answers that the number refuses.
fn refused(number: u8) -> (u8, [(u64, u64); 2]) {
    (number, [(NAN_BITS, number.into()); 2])
}

/// The kind and the rule set with the types of Rust, none where either is a number that none has.
fn typed(kind: u8, rules: u32) -> Option<(OptionType, RuleSet)> {
    OptionType::from_byte(kind).zip(RuleSet::try_from(rules).ok())
}

/// A limit of 2 with trails of so many bytes: the number, and both trails stay.
fn refused_with_trails(number: u8, range: Range, (kind, rules): (u8, u32), [low_bytes, high_bytes]: [usize; 2]) {
    let (mut low_trail, mut high_trail) = (UNTOUCHED, UNTOUCHED);
    let [low_part, high_part] = [&mut low_trail[..low_bytes], &mut high_trail[..high_bytes]];
    let [low, high, forward, strike, expiry] = range.map(f64::to_bits);
    let answer = bits::bid_ask(low, high, forward, strike, expiry, kind, 2, rules, low_part, high_part);
    assert_eq!(answer, refused(number), "{range:?}");
    if let Some((kind, rules)) = typed(kind, rules) {
        let [low, high, forward, strike, expiry] = range;
        let answer = bid_ask_with_trails(low, high, forward, strike, expiry, kind, 2, rules, low_part, high_part);
        assert_eq!(answer, Err(Refusal { number, steps: 0 }), "{range:?}");
    }
    assert_eq!((low_trail, high_trail), (UNTOUCHED, UNTOUCHED), "{range:?}");
}

fn refused_without_trails(number: u8, range: Range, (kind, rules): (u8, u32)) {
    let [low, high, forward, strike, expiry] = range.map(f64::to_bits);
    let answer = bits::bid_ask_without_trails(low, high, forward, strike, expiry, kind, 2, rules);
    assert_eq!(answer, refused(number), "{range:?}");
    if let Some((kind, rules)) = typed(kind, rules) {
        let [low, high, forward, strike, expiry] = range;
        let refusal = Refusal { number, steps: 0 };
        assert_eq!(bid_ask(low, high, forward, strike, expiry, kind, 2, rules), Err(refusal), "{range:?}");
        let runs = bid_ask_step_by_step(low, high, forward, strike, expiry, kind, 2, rules);
        assert_eq!(runs, Err(refusal), "{range:?}");
    }
}

/// Each row has right what the rows above it are refused for, and all else wrong, the trails too.
#[test]
fn checks_in_order() {
    let (nan, infinity, least) = (f64::NAN, f64::INFINITY, f64::from_bits(1));
    for (number, range, kind_and_rules) in [
        (32, [nan, -infinity, 0.0, -1.0, least], (3, 2)),
        (32, [nan, -infinity, 0.0, -1.0, least], (0, u32::MAX)),
        (24, [nan, -infinity, 0.0, -1.0, least], (3, 1)),
        (1, [nan, -infinity, 0.0, -1.0, least], (1, 0)),
        (1, [infinity, 9.5, 0.0, -1.0, least], (1, 1)),
        (1, [-infinity, 9.5, 0.0, -1.0, least], (1, 0)),
        (1, [10.5, -infinity, 0.0, -1.0, least], (1, 1)),
        (1, [10.5, nan, 0.0, -1.0, least], (2, 0)),
        (31, [10.5, 9.5, 0.0, -1.0, least], (2, 1)),
        (31, [9.5, 9.5f64.next_down(), 0.0, -1.0, least], (1, 0)),
        (31, [least, -0.0, 0.0, -1.0, least], (1, 1)),
        // Neither zero is above the other.
        (2, [0.0, -0.0, infinity, -1.0, least], (1, 0)),
        (2, [-0.0, 0.0, 0.0, -1.0, least], (2, 1)),
        (3, [9.5, 10.5, 100.0, -1.0, least], (1, 0)),
        (4, [9.5, 10.5, 100.0, 95.0, least], (2, 1)),
    ] {
        refused_with_trails(number, range, kind_and_rules, [95, 95]);
        refused_without_trails(number, range, kind_and_rules);
    }
}

/// Each trail is looked at, and a byte too few is too short, also where the answer needs none of it.
#[test]
fn short_trails() {
    for range in [[9.5, 10.5, 100.0, 95.0, 1.0], [-1.0, 1e9, 100.0, 95.0, 1.0]] {
        for bytes in [[95, 95], [95, 96], [96, 95], [0, 96], [96, 0]] {
            refused_with_trails(21, range, (1, 0), bytes);
            refused_with_trails(21, range, (1, 1), bytes);
        }
        let [low, high, forward, strike, expiry] = range;
        let (mut low_trail, mut high_trail) = (UNTOUCHED, UNTOUCHED);
        let both = |limit, low_trail: &mut [u8], high_trail: &mut [u8]| {
            bid_ask_with_trails(low, high, forward, strike, expiry, Call, limit, Original, low_trail, high_trail)
        };
        assert!(both(2, &mut low_trail, &mut high_trail).is_ok());
        assert!(both(-2, &mut [], &mut []).is_ok());
    }
}
