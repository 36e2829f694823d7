//! The Rust's solve, trail, book and listing against document 01's own values and rules, and bid and ask and the rule sets
//! against document 02's.

#![cfg(rust_source)]

use rust_over_rules::bid_ask::{bid_ask, Range};
use rust_over_rules::book::{file, kind_of, line, market_and_limit, read, recheck, write_trail, Refusal, RECORD, STEP};
use rust_over_rules::elementary::{bits_of, exp, sqrt};
use rust_over_rules::prices::{black, normalised_black_call, normalised_vega};
use rust_over_rules::rule_set::RuleSet;
use rust_over_rules::solver::{implied_volatility_from_a_transformed_rational_guess, solve, target, Market, Run};
use rust_over_rules::OptionType::{self, Call, Put};

fn market(price: f64, forward: f64, strike: f64, expiry: f64, kind: OptionType) -> Market {
    Market { price, forward, strike, expiry, kind }
}

/// A market whose price is that of a volatility.
fn priced(forward: f64, strike: f64, sigma: f64, expiry: f64, kind: OptionType) -> Market {
    market(black(forward, strike, sigma, expiry, kind).expect("a price"), forward, strike, expiry, kind)
}

/// Volatility bits, branch, ending and steps.
fn answer(run: &Run) -> (u64, u8, u8, u32) {
    let solution = run.answer.expect("it isn't refused");
    (bits_of(solution.volatility), solution.branch, solution.ending, run.count())
}

fn number(run: &Run) -> u8 {
    run.answer.map_or_else(|number| number, |_| 0)
}

/// A market of each branch that there is one of: the lower loop, both middles, the upper loop. Its run ends for the step
/// test; those of some near ones don't.
fn of_branches() -> [(u8, Market); 4] {
    [(1, 0.1, Call), (2, 0.6, Call), (3, 1.5, Put), (4, 4.0, Call)].map(|(branch, sigma, kind)| {
        let mut near = (0..100).map(|i| priced(100.0, 150.0, sigma + 0.001 * f64::from(i), 1.0, kind));
        let market = near.find(|market| answer(&solve(0, *market, 200, None)).2 == 1);
        (branch, market.expect("a run that ends for the step test"))
    })
}

/// P1 to P6, through solve and through the wrapper.
#[test]
fn table_rows() {
    let rows = [
        (market(150.0, 100.0, 200.0, 4.0, Call), 0x7FDF_FFFF_FFFF_FFFF),
        (market(99.0, 200.0, 100.0, 1.0, Call), (-f64::MAX).to_bits()),
        (market(0.0, 100.0, 200.0, 1.0, Call), 0),
        (market(150.0, 100.0, 200.0, 0.25, Call), f64::INFINITY.to_bits()),
        (market(100.0, 200.0, 100.0, 4.0, Call), f64::MAX.to_bits()),
        (market(-0.0, 100.0, 100.0, 1.0, Put), 0),
    ];
    for (market, bits) in rows {
        assert_eq!(answer(&solve(0, market, 2, Some(96))), (bits, 0, 0, 0));
        assert_eq!(answer(&implied_volatility_from_a_transformed_rational_guess(0, market)), (bits, 0, 0, 0));
        // P12.
        assert_eq!(number(&solve(0, market, 2, Some(95))), 21);
    }
}

#[test]
fn refusals_in_order() {
    let of = |market, limit, trail| number(&solve(0, market, limit, trail));
    assert_eq!(of(market(f64::NAN, 0.0, 0.0, 0.0, Call), 1, Some(0)), 1);
    assert_eq!(of(market(1.0, 0.0, 0.0, 0.0, Call), 1, Some(0)), 2);
    assert_eq!(of(market(1.0, 1.0, -1.0, 0.0, Call), 1, Some(0)), 3);
    assert_eq!(of(market(1.0, 1.0, 1.0, f64::from_bits(1), Call), 1, Some(0)), 4);
    assert_eq!(of(market(0.1, 1.0, 1.0, 1.0, Call), 1, Some(47)), 21);
    assert_eq!(of(market(0.1, 1.0, 1.0, 1.0, Call), i32::MAX, Some(1 << 20)), 21);
    assert_eq!(of(market(0.1, 1.0, 1.0, 1.0, Call), i32::MIN, Some(0)), 0);
    // Without a trail there is no 21.
    assert_eq!(of(market(0.1, 1.0, 1.0, 1.0, Call), i32::MAX, None), 0);
}

/// The branch, the ending and the number of steps; and a limit that cuts a run gives the longer run's first steps.
#[test]
fn branches_and_endings() {
    for (branch, market) in of_branches() {
        let whole = solve(0, market, 200, None);
        let (_, found, ending, steps) = answer(&whole);
        assert_eq!((found, ending), (branch, 1), "{market:?}");
        assert!((1..20).contains(&steps), "{steps}");
        for limit in -1..20 {
            let (_, found, ending, count) = answer(&solve(0, market, limit, None));
            assert_eq!(found, branch);
            assert_eq!(count, steps.min(limit.max(0) as u32));
            // At a limit of all its steps the run ends for the limit, though the step test holds then.
            assert_eq!(ending, if limit as i64 > i64::from(steps) { 1 } else { 2 });
        }
        let wrapped = implied_volatility_from_a_transformed_rational_guess(0, market);
        assert_eq!(answer(&wrapped), answer(&solve(0, market, 2, None)));
    }
}

/// Each step begins where the one before it ended, and the last one's end is the volatility's.
#[test]
fn steps_hang_together() {
    for (_, market) in of_branches() {
        let run = solve(0, market, 200, None);
        for pair in run.steps.windows(2) {
            assert_eq!(pair[0].after.to_bits(), pair[1].s.to_bits());
        }
        let last = run.steps.last().expect("a step");
        assert_eq!(answer(&run).0, bits_of(last.after / market.expiry.sqrt()));
    }
}

/// Branch 5 needs a target that is above b_h and not above half of b_max. In a scan over the x that a quotient of two normal
/// numbers can have, b_h stays far above that half, so the comparison doesn't demand this branch. A scan is no proof.
#[test]
fn branch_5_has_no_room() {
    let mut size = 1e-17;
    while size < 750.0 {
        let x = -size;
        let (s_c, b_max) = (sqrt(2.0 * size), exp(0.5 * x));
        let b_c = normalised_black_call(x, s_c).expect("a price");
        let s_h = s_c + (b_max - b_c) / normalised_vega(x, s_c);
        let b_h = normalised_black_call(x, s_h).expect("a price");
        assert!(b_h > 0.78 * b_max, "{x}");
        size *= 1.001;
    }
    let at_the_money = normalised_black_call(0.0, 2.5066282746310002).expect("a price");
    assert!(at_the_money > 0.78);
}

#[test]
fn trail_bytes() {
    let run = solve(0, of_branches()[0].1, 2, Some(2 * STEP));
    let mut trail = vec![0xA5; 2 * STEP + 7];
    write_trail(&run.steps, &mut trail);
    assert_eq!(trail[..8], run.steps[0].s.to_le_bytes());
    assert_eq!(trail[8..16], run.steps[0].b.to_le_bytes());
    assert_eq!(trail[16..24], run.steps[0].vega.to_le_bytes());
    assert_eq!(trail[24..32], run.steps[0].left.to_le_bytes());
    assert_eq!(trail[32..40], run.steps[0].right.to_le_bytes());
    assert_eq!(trail[40..48], run.steps[0].after.to_le_bytes());
    assert_eq!(trail[48..56], run.steps[1].s.to_le_bytes());
    assert_eq!(trail[96..], [0xA5; 7]);
}

/// A book of one record for each branch and limit, and a part slot.
fn book() -> (Vec<u8>, u64) {
    let mut book = vec![0xA5; 16 * RECORD + 5];
    let mut used = 0;
    for (_, market) in of_branches() {
        for limit in [-7, 2, 200] {
            used = file(0, market, limit, &mut book, used).expect("a free slot");
        }
    }
    assert!(book[RECORD * used as usize..].iter().all(|byte| *byte == 0xA5));
    (book, used)
}

#[test]
fn filing() {
    let (book, used) = book();
    for k in 0..used {
        assert_eq!(recheck(&book, used, k, 0), Ok(true));
        assert_eq!(read(&book, used, k).map(|part| part.as_ptr()), Ok(book[RECORD * k as usize..].as_ptr()));
    }
    assert_eq!(book[44..48], 0_u32.to_le_bytes());
    assert_eq!(book[40..44], (-7_i32).to_le_bytes());
    assert_eq!(book[48..51], [1, 1, 2]);
    for (used, k) in [(used, used), (17, 0), (u64::MAX, 0), (u64::MAX, u64::MAX - 1), (0, 0)] {
        assert_eq!(read(&book, used, k), Err(23));
        assert_eq!(recheck(&book, used, k, 0), Err(Refusal { number: 23, steps: 0 }));
    }
    let market = of_branches()[0].1;
    let mut other = book.clone();
    let of = |market, other: &mut Vec<u8>, used| file(0, market, 2, other, used).map_err(|refusal| refusal.number);
    assert_eq!(of(market, &mut other, 16), Err(22));
    assert_eq!(of(market, &mut other, 17), Err(23));
    assert_eq!(of(market, &mut other, u64::MAX), Err(23));
    assert_eq!(of(Market { expiry: 0.0, ..market }, &mut other, u64::MAX), Err(4));
    assert_eq!(other, book);
}

/// Recheck says no exactly where the bytes of an answer are changed; a changed spare byte is refused with 24.
#[test]
fn changed_bytes() {
    let (book, used) = book();
    for k in 0..used {
        for i in 0..RECORD {
            let mut other = book.clone();
            let at = RECORD * k as usize + i;
            for value in [0, 1, 2, 3, 5, 6, 0x40, 0xFF] {
                // A limit of many millions may be one that no step test cuts short.
                if value == book[at] || (41..44).contains(&i) {
                    continue;
                }
                other[at] = value;
                let found = recheck(&other, used, k, 0);
                match i {
                    32..=39 | 44..=47 => assert_eq!(found, Ok(false)),
                    49 if value <= 5 => assert_eq!(found, Ok(false)),
                    50 if value <= 2 => assert_eq!(found, Ok(false)),
                    49..=63 => assert_eq!(found, Err(Refusal { number: 24, steps: 0 })),
                    48 if kind_of(value).is_none() => assert_eq!(found, Err(Refusal { number: 24, steps: 0 })),
                    // Another input: where it isn't refused, it has an answer of its own.
                    _ => assert!(market_and_limit(&std::array::from_fn(|j| other[RECORD * k as usize + j])).is_ok()),
                }
            }
        }
    }
}

/// Document 01's three lines, and its refusals.
#[test]
fn lines() {
    let record = |price: f64, forward: f64, strike: f64, expiry: f64| {
        let mut bytes = [0; RECORD];
        for (i, x) in [price, forward, strike, expiry].into_iter().enumerate() {
            bytes[8 * i..8 * i + 8].copy_from_slice(&x.to_le_bytes());
        }
        (bytes[40], bytes[48]) = (2, 1);
        bytes
    };
    assert_eq!(line(0, &record(150.0, 100.0, 200.0, 4.0)), "0 7FDFFFFFFFFFFFFF 0 0 0\n");
    assert_eq!(line(1, &record(99.0, 200.0, 100.0, 1.0)), "1 FFEFFFFFFFFFFFFF 0 0 0\n");
    assert_eq!(line(2, &record(0.0, 100.0, 200.0, 1.0)), "2 0000000000000000 0 0 0\n");
    assert_eq!(line(3, &record(0.0, 100.0, 200.0, 1.0)[..63]), "3 REF 23\n");
    assert_eq!(line(u64::MAX, &[]), "18446744073709551615 REF 23\n");
    let mut spare = record(f64::NAN, 0.0, 0.0, 0.0);
    assert_eq!(line(4, &spare), "4 REF 1\n");
    spare[63] = 1;
    assert_eq!(line(4, &spare), "4 REF 24\n");
    let (book, used) = book();
    for k in 0..used {
        let part = read(&book, used, k).expect("a record");
        let words: Vec<String> = line(k, part).split(' ').map(|word| word.trim().to_string()).collect();
        assert_eq!(words[1], format!("{:016X}", u64::from_le_bytes(std::array::from_fn(|i| part[32 + i]))));
        assert_eq!(words[3..], [part[49].to_string(), part[50].to_string()]);
    }
}

// ---- bid and ask

/// A market's option with these prices.
fn range(low: f64, high: f64, market: Market) -> Range {
    let Market { forward, strike, expiry, kind, .. } = market;
    Range { low, high, forward, strike, expiry, kind }
}

/// All of a run but its NaNs' bits.
fn whole(run: &Run) -> String {
    format!("{run:?}")
}

/// The number of the whole call, 0 for none.
fn number_of_both(range: Range, limit: i32, trails: Option<[usize; 2]>) -> u8 {
    bid_ask(0, range, limit, trails).err().unwrap_or(0)
}

/// Each call has all the causes that come after its own.
#[test]
fn bid_ask_refusals_in_order() {
    let bad = market(1.0, 0.0, 0.0, 0.0, Call);
    let of = |low, high, market, trails| number_of_both(range(low, high, market), 1, Some(trails));
    assert_eq!(of(f64::INFINITY, f64::NAN, bad, [0, 0]), 1);
    assert_eq!(of(f64::INFINITY, 1.0, bad, [0, 0]), 1);
    assert_eq!(of(1.0, f64::NEG_INFINITY, bad, [0, 0]), 1);
    assert_eq!(of(1.0_f64.next_up(), 1.0, bad, [0, 0]), 31);
    assert_eq!(of(1.0, 1.0, bad, [0, 0]), 2);
    assert_eq!(of(1.0, 1.0, Market { forward: 1.0, ..bad }, [0, 0]), 3);
    assert_eq!(of(1.0, 1.0, Market { forward: 1.0, strike: 1.0, ..bad }, [0, 0]), 4);
    let good = market(0.1, 1.0, 1.0, 1.0, Call);
    for (trails, number) in [([47, 47], 21), ([47, 48], 21), ([48, 47], 21), ([48, 48], 0)] {
        assert_eq!(of(0.1, 0.2, good, trails), number);
    }
    // Without trails there is no 21.
    assert_eq!(number_of_both(range(0.1, 0.2, good), i32::MAX, None), 0);
    assert_eq!(number_of_both(range(0.1, 0.2, good), i32::MIN, Some([0, 0])), 0);
}

/// Equal prices and zeros of either sign are in order.
#[test]
fn bid_ask_takes_equal_prices() {
    for (_, market) in of_branches() {
        for (low, high) in [(market.price, market.price), (0.0, -0.0), (-0.0, 0.0), (-0.0, -0.0)] {
            assert_eq!(number_of_both(range(low, high, market), 2, None), 0);
        }
    }
}

/// Low price first, with limits that cut a run and limits that don't.
#[test]
fn bid_ask_gives_both_single_calls() {
    for (_, market) in of_branches() {
        let (low, high) = (market.price, 1.01 * market.price);
        for limit in [i32::MIN, 0, 1, 2, 200] {
            let runs = bid_ask(0, range(low, high, market), limit, Some([9600, 9601])).expect("it isn't refused");
            let single = [low, high].map(|price| whole(&solve(0, Market { price, ..market }, limit, Some(9600))));
            assert_eq!(runs.each_ref().map(whole), single);
            let without = bid_ask(0, range(low, high, market), limit, None).expect("it isn't refused");
            assert_eq!(without.each_ref().map(whole), single);
        }
    }
}

/// The price in the middle meets 7 after two steps, those beside it don't.
#[test]
fn bid_ask_runs_the_other_end() {
    let bits = [0x4550_E417_AF0E_EA91, 0x4E1F_18AE_9C13_9E20, 0x4A09_6A15_88E9_6C2D, 0x404A_BD6F_0369_6393];
    let [price, forward, strike, expiry] = bits.map(f64::from_bits);
    let option = market(price, forward, strike, expiry, Put);
    let numbers = |low, high| {
        let runs = bid_ask(0, range(low, high, option), 20, Some([960, 960])).expect("it isn't refused");
        runs.map(|run| (number(&run), run.count()))
    };
    let [below, above] = [0.99 * price, 1.01 * price];
    let [low, high] = [below, above].map(|price| solve(0, Market { price, ..option }, 20, None).count());
    assert_eq!(numbers(price, above), [(7, 2), (0, high)]);
    assert_eq!(numbers(below, price), [(0, low), (7, 2)]);
    assert_eq!(numbers(price, price), [(7, 2), (7, 2)]);
}

// ---- rule sets

/// Numbers that are no rule set's.
const UNKNOWN: [u32; 4] = [2, 255, 256, u32::MAX];

/// "A student's Call at 120, forward 200, strike 100, is reported above maximum."
fn students_call() -> Market {
    market(120.0, 200.0, 100.0, 1.0, Call)
}

/// A price at, just below or just above a cap.
fn beside(cap: f64) -> [f64; 3] {
    [cap.next_down(), cap, cap.next_up()]
}

#[test]
fn the_students_call() {
    let market = students_call();
    assert_eq!(answer(&solve(0, market, 2, Some(96))), (f64::MAX.to_bits(), 0, 0, 0));
    assert_eq!(answer(&solve(1, market, 2, Some(96))), (0x3FF0_61F7_B1DA_C668, 2, 2, 2));
    assert_eq!(answer(&implied_volatility_from_a_transformed_rational_guess(1, market)).0, 0x3FF0_61F7_B1DA_C668);
    assert_eq!(target(0, market), Ok(None));
    // The value over the root of both prices: 20 over the root of 20 000.
    assert_eq!(target(1, market), Ok(Some(20.0 / (sqrt(200.0) * sqrt(100.0)))));
}

/// "The course book caps a Call at the forward and a Put at the strike", rule set 0 the other way round. A price that is not
/// capped, and that no volatility has, gives the same number over the root of the expiry.
#[test]
fn caps_of_both_rule_sets() {
    let is_above = |rule_set, market| answer(&solve(rule_set, market, 2, None)) == (f64::MAX.to_bits(), 0, 0, 0);
    for (forward, strike) in [(200.0, 100.0), (100.0, 200.0), (100.0, 103.0), (7.0, 5.0), (1e300, 1.5e300)] {
        for (kind, caps) in [(Call, [strike, forward]), (Put, [forward, strike])] {
            for (rule_set, cap) in (0..).zip(caps) {
                let found = beside(cap).map(|price| is_above(rule_set, market(price, forward, strike, 4.0, kind)));
                assert_eq!(found, [false, true, true], "{rule_set} {kind} {forward} {strike}");
            }
        }
    }
}

/// Below both caps all of a run is the same, and where it is refused, too.
#[test]
fn one_run_below_both_caps() {
    for (_, market) in of_branches() {
        for kind in [Call, Put] {
            for part in [-0.5, 0.0, 0.1, 0.5, 0.9, 1.0 - f64::EPSILON] {
                let price = market.forward.min(market.strike) * part;
                let market = Market { price, kind, ..market };
                for limit in [-1, 0, 1, 2, 200] {
                    assert_eq!(whole(&solve(0, market, limit, None)), whole(&solve(1, market, limit, None)));
                }
            }
        }
    }
}

/// Each call has all the causes that come after 32.
#[test]
fn unknown_rule_sets() {
    for rule_set in UNKNOWN {
        assert_eq!(RuleSet::of(rule_set), Err(32));
        let bad = market(f64::NAN, 0.0, 0.0, 0.0, Call);
        for market in [bad, students_call()] {
            assert_eq!(number(&solve(rule_set, market, 1, Some(0))), 32);
            assert_eq!(number(&solve(rule_set, market, 1, None)), 32);
            assert_eq!(number(&implied_volatility_from_a_transformed_rational_guess(rule_set, market)), 32);
            assert_eq!(target(rule_set, market), Err(32));
            for trails in [None, Some([0, 0])] {
                let range = range(f64::INFINITY, f64::NAN, market);
                assert_eq!(bid_ask(rule_set, range, 1, trails).err(), Some(32));
            }
            // A used count above the slots, a full book, and a free slot.
            for (used, len) in [(u64::MAX, 0), (0, 63), (0, 64)] {
                let mut book = vec![0xA5; len];
                assert_eq!(file(rule_set, market, 2, &mut book, used), Err(Refusal { number: 32, steps: 0 }));
                assert_eq!(book, vec![0xA5; len]);
            }
        }
    }
    assert_eq!([0, 1].map(|rule_set| RuleSet::of(rule_set).is_ok()), [true; 2]);
}

/// "before every other check except 23 and 24 at a recheck".
#[test]
fn recheck_of_an_unknown_rule_set() {
    let (book, used) = book();
    for rule_set in UNKNOWN {
        let of = |book: &[u8], k| recheck(book, used, k, rule_set).map_err(|refusal| refusal.number);
        assert_eq!(of(&book, used), Err(23));
        assert_eq!(of(&book, 0), Err(32));
        // A price that is not finite, with a byte that the layout leaves out and without.
        let mut other = book.clone();
        other[..8].copy_from_slice(&f64::NAN.to_le_bytes());
        assert_eq!(of(&other, 0), Err(32));
        assert_eq!(recheck(&other, used, 0, 1).map_err(|refusal| refusal.number), Err(1));
        other[63] = 1;
        assert_eq!(of(&other, 0), Err(24));
    }
}

/// A record of a price below both caps agrees under either rule set; one between the caps under its own alone.
#[test]
fn records_of_both_rule_sets() {
    let below = of_branches().map(|(_, market)| (market, true));
    for (market, agrees) in below.into_iter().chain([(students_call(), false)]) {
        for (filed, asked) in [(0, 0), (0, 1), (1, 0), (1, 1)] {
            let mut book = vec![0; RECORD];
            assert_eq!(file(filed, market, 2, &mut book, 0), Ok(1));
            assert_eq!(recheck(&book, 1, 0, asked), Ok(agrees || filed == asked), "{market:?} {filed} {asked}");
        }
    }
    // relist's line is rule set 0's.
    let mut book = vec![0; RECORD];
    assert_eq!(file(1, students_call(), 2, &mut book, 0), Ok(1));
    assert_eq!(line(0, &book), "0 7FEFFFFFFFFFFFFF 0 0 0\n");
}
