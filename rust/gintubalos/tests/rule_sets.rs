//! The rule sets: each cap to the float, what is the same under both, books between them, and numbers that no rule set has.

use gintubalos::{
    bits,
    OptionType::{Call, Put},
    RuleSet::{Original, TextbookCaps},
    *,
};

const NAN_BITS: u64 = 0x7FF8_0000_0000_0000;

/// Numbers that no rule set has; the low byte of 256 and of 257 is one that has.
const UNKNOWN: [u32; 6] = [2, 255, 256, 257, 1 << 31, u32::MAX];

/// Price, forward, strike and expiry.
type Market = [f64; 4];

/// Document 02's own example.
const STUDENT: Market = [120.0, 200.0, 100.0, 1.0];

fn under(rules: RuleSet, [price, forward, strike, expiry]: Market, kind: OptionType, limit: i32) -> Solution {
    solve(price, forward, strike, expiry, kind, limit, rules).expect("an answer")
}

#[test]
fn numbers() {
    assert_eq!(RuleSet::ALL, [Original, TextbookCaps]);
    assert_eq!(RuleSet::default(), Original);
    for (number, rules) in (0..).zip(RuleSet::ALL.iter().copied()) {
        assert_eq!((rules.number(), RuleSet::try_from(number)), (number, Ok(rules)));
    }
    for number in UNKNOWN {
        assert_eq!(RuleSet::try_from(number), Err(Refusal { number: 32, steps: 0 }));
    }
}

#[test]
fn the_students_call() {
    let original = under(Original, STUDENT, Call, 2);
    assert_eq!((original.volatility, original.sentinel()), (f64::MAX, Some(Sentinel::AboveMaximum)));
    let textbook = under(TextbookCaps, STUDENT, Call, 2);
    assert_eq!((textbook.volatility.to_bits(), textbook.sentinel()), (0x3FF0_61F7_B1DA_C668, None));
    assert_eq!((textbook.branch, textbook.ending, textbook.steps), (Branch::LowerMiddle, Ending::Limit, 2));
    // The wrapper has the rule set as a number.
    let [price, forward, strike, expiry] = STUDENT.map(f64::to_bits);
    let wrapper =
        |rules| bits::implied_volatility_from_a_transformed_rational_guess(price, forward, strike, expiry, 1, rules).0;
    assert_eq!([wrapper(0), wrapper(1)], [f64::MAX.to_bits(), 0x3FF0_61F7_B1DA_C668]);
    // The Black price gives the price again.
    let again = black(200.0, 100.0, textbook.volatility, 1.0, Call).expect("a price");
    assert!((again - 120.0).abs() < 1e-12, "{again}");
    // Where the answer comes without a loop there is no target.
    assert_eq!(target(120.0, 200.0, 100.0, 1.0, Call, Original), Ok(None));
    assert!(target(120.0, 200.0, 100.0, 1.0, Call, TextbookCaps).expect("no refusal").is_some());
}

/// After normalising the sentinel is over the root of the expiry, here of four years: so it shows which check gave it.
const NORMALISED: f64 = f64::MAX / 2.0;
const BELOW_INTRINSIC: f64 = -f64::MAX;

/// Forward, strike, kind, rule set, cap, and what one float below the cap answers with a limit of 2.
type Cap = (f64, f64, OptionType, RuleSet, f64, f64);

const CAPS: [Cap; 10] = [
    (200.0, 100.0, Call, Original, 100.0, BELOW_INTRINSIC),
    (200.0, 100.0, Call, TextbookCaps, 200.0, 8.449264634943685),
    (200.0, 100.0, Put, Original, 200.0, NORMALISED),
    (200.0, 100.0, Put, TextbookCaps, 100.0, 8.449264634943685),
    (100.0, 200.0, Call, Original, 200.0, NORMALISED),
    (100.0, 200.0, Call, TextbookCaps, 100.0, 8.449264634943685),
    (100.0, 200.0, Put, Original, 100.0, BELOW_INTRINSIC),
    (100.0, 200.0, Put, TextbookCaps, 200.0, 8.449264634943685),
    // Where forward and strike are equal the caps are.
    (100.0, 100.0, Call, Original, 100.0, 8.430626608774935),
    (100.0, 100.0, Call, TextbookCaps, 100.0, 8.430626608774935),
];

/// From the cap on the answer is the sentinel, which no later check gives with this expiry.
#[test]
fn caps() {
    for (forward, strike, kind, rules, cap, below) in CAPS {
        let at = |price| under(rules, [price, forward, strike, 4.0], kind, 2);
        assert_eq!(at(cap.next_down()).volatility, below, "{forward} {strike} {kind} {rules}");
        for price in [cap, cap.next_up(), f64::MAX] {
            let solution = at(price);
            assert_eq!(solution.volatility, f64::MAX, "{price} {forward} {strike} {kind} {rules}");
            assert_eq!(solution.sentinel(), Some(Sentinel::AboveMaximum));
            assert_eq!((solution.ending, solution.steps), (Ending::NoLoop, 0));
        }
    }
}

/// The textbook's Put has the Call's volatility: a Call less a Put is forward less strike.
#[test]
fn a_call_and_a_put_under_the_textbooks_caps() {
    assert_eq!(
        under(TextbookCaps, [120.0, 200.0, 100.0, 1.0], Call, 9),
        under(TextbookCaps, [20.0, 200.0, 100.0, 1.0], Put, 9)
    );
    assert_eq!(
        under(TextbookCaps, [20.0, 100.0, 200.0, 1.0], Call, 9),
        under(TextbookCaps, [120.0, 100.0, 200.0, 1.0], Put, 9)
    );
}

/// Below both caps, in every branch but the last.
const BELOW_BOTH: [(Market, OptionType); 9] = [
    ([10.0, 100.0, 95.0, 1.0], Call),
    ([0.001, 100.0, 150.0, 0.25], Call),
    ([80.0, 100.0, 110.0, 2.0], Put),
    ([99.0, 100.0, 110.0, 1.0], Call),
    ([60.0, 100.0, 110.0, 2.0], Call),
    ([7.965567455405804, 100.0, 100.0, 1.0], Call),
    ([0.0, 100.0, 200.0, 1.0], Call),
    ([99.0, 200.0, 100.0, 1.0], Call),
    ([-0.0, 100.0, 100.0, 1.0], Put),
];

/// Below both caps the answer, each byte of the trail and the target are the same under both.
#[test]
fn the_same_below_both_caps() {
    for (market @ [price, forward, strike, expiry], kind) in BELOW_BOTH {
        for limit in [i32::MIN, 0, 1, 2, 20] {
            let all = |rules| {
                let mut trail = [0xA5; 20 * STEP_BYTES + 1];
                let answer = solve_with_trail(price, forward, strike, expiry, kind, limit, rules, &mut trail);
                let run = solve_step_by_step(price, forward, strike, expiry, kind, limit, rules);
                (under(rules, market, kind, limit), answer, trail, run)
            };
            assert_eq!(all(Original), all(TextbookCaps), "{market:?} {kind} {limit}");
        }
        let sought = |rules| target(price, forward, strike, expiry, kind, rules);
        assert_eq!(sought(Original), sought(TextbookCaps));
    }
}

/// A book of one record, and what its rechecks find under each rule set.
fn filed([price, forward, strike, expiry]: Market, kind: OptionType, rules: RuleSet) -> ([u8; 64], [bool; 2]) {
    let mut book = [0xA5; RECORD_BYTES];
    assert_eq!(file(price, forward, strike, expiry, kind, 2, rules, &mut book, 0), Ok(1));
    (book, [Original, TextbookCaps].map(|rules| recheck(&book, 1, 0, rules).expect("no refusal")))
}

#[test]
fn books() {
    // Below both caps the records are the same, byte by byte.
    for (market, kind) in BELOW_BOTH {
        let both = filed(market, kind, Original);
        assert_eq!(both.1, [true, true]);
        assert_eq!(both, filed(market, kind, TextbookCaps));
    }
    // Between the caps each agrees under its own rule set alone.
    for (market, kind) in [
        (STUDENT, Call),
        ([120.0, 100.0, 200.0, 1.0], Put),
        ([100.0, 200.0, 100.0, 1.0], Call),
        ([200f64.next_down(), 200.0, 100.0, 1.0], Call),
        // Here both answer the sentinel, before normalising and after.
        ([150.0, 200.0, 100.0, 4.0], Put),
        ([150.0, 100.0, 200.0, 0.25], Call),
    ] {
        assert_eq!(filed(market, kind, Original).1, [true, false], "{market:?} {kind}");
        assert_eq!(filed(market, kind, TextbookCaps).1, [false, true], "{market:?} {kind}");
    }
    // And with an expiry of 1 the two sentinels are the same float.
    assert_eq!(filed([150.0, 200.0, 100.0, 1.0], Put, Original), filed([150.0, 200.0, 100.0, 1.0], Put, TextbookCaps));
    // From both caps on they agree again.
    assert_eq!(filed([200.0, 200.0, 100.0, 4.0], Call, Original).1, [true, true]);
}

/// relist's line has the original's rules, whatever the record was filed under.
#[test]
fn lines() {
    let (book, _) = filed(STUDENT, Call, TextbookCaps);
    assert_eq!(line(0, &book), "0 7FEFFFFFFFFFFFFF 0 0 0\n");
}

/// An unknown rule set comes before a wrong kind, a wrong price, a short trail and a full book, and nothing is written.
#[test]
fn unknown_rule_sets() {
    let nan = f64::NAN.to_bits();
    for rules in UNKNOWN {
        for kind in [0, 1, 2, 3, 255] {
            let (mut trail, mut high_trail, mut book) = ([0xA5; 95], [0xA5; 95], [0xA5; 64]);
            let refused = (NAN_BITS, 32);
            assert_eq!(bits::solve_without_trail(nan, 0, 0, 0, kind, 2, rules), refused);
            assert_eq!(bits::solve_with_trail(nan, 0, 0, 0, kind, 2, rules, &mut trail), refused);
            assert_eq!(bits::implied_volatility_from_a_transformed_rational_guess(nan, 0, 0, 0, kind, rules), refused);
            assert_eq!(bits::target(nan, 0, 0, 0, kind, rules), (NAN_BITS, 32));
            let both = bits::bid_ask(nan, nan, 0, 0, 0, kind, 2, rules, &mut trail, &mut high_trail);
            assert_eq!(both, (32, [refused; 2]));
            assert_eq!(bits::bid_ask_without_trails(nan, nan, 0, 0, 0, kind, 2, rules), (32, [refused; 2]));
            for used in [0, 1, u64::MAX] {
                assert_eq!(bits::file(nan, 0, 0, 0, kind, 2, rules, &mut book, used), (0, 32));
            }
            assert_eq!((trail, high_trail, book), ([0xA5; 95], [0xA5; 95], [0xA5; 64]));
        }
        // Also where nothing else is wrong, and there is room.
        let [price, forward, strike, expiry] = STUDENT.map(f64::to_bits);
        let (mut trail, mut book) = ([0xA5; 96], [0xA5; 64]);
        let answer = bits::solve_with_trail(price, forward, strike, expiry, 1, 2, rules, &mut trail);
        assert_eq!(answer, (NAN_BITS, 32));
        assert_eq!(bits::file(price, forward, strike, expiry, 1, 2, rules, &mut book, 0), (0, 32));
        assert_eq!((trail, book), ([0xA5; 96], [0xA5; 64]));
    }
}

/// At a recheck an unknown rule set comes after 23 and 24, and before what the record's input is refused for.
#[test]
fn unknown_rule_sets_at_a_recheck() {
    let (mut book, _) = filed(STUDENT, Call, TextbookCaps);
    for rules in UNKNOWN {
        assert_eq!(bits::recheck(&book, 1, 0, rules), (0, 32));
        for (used, k) in [(0, 0), (1, 1), (2, 0), (u64::MAX, 0)] {
            assert_eq!(bits::recheck(&book, used, k, rules), (0, 23));
        }
        assert_eq!(bits::recheck(&book[..63], 1, 0, rules), (0, 23));
        for (at, byte) in [(48, 3), (49, 6), (50, 3), (51, 1), (63, 1)] {
            let was = std::mem::replace(&mut book[at], byte);
            assert_eq!(bits::recheck(&book, 1, 0, rules), (0, 24));
            book[at] = was;
        }
        let mut wrong = book;
        wrong[..8].copy_from_slice(&f64::NAN.to_le_bytes());
        assert_eq!(bits::recheck(&wrong, 1, 0, rules), (0, 32));
        assert_eq!(bits::recheck(&wrong, 1, 0, 1), (0, 1));
    }
}
