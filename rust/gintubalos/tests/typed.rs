//! solve, its trail and the book with the types of Rust.

use gintubalos::probe::{ln, normalised_black_call, normalised_vega};
use gintubalos::OptionType::{Call, Put};
use gintubalos::RuleSet::{Original, TextbookCaps};
use gintubalos::{
    implied_volatility_from_a_transformed_rational_guess as wrapper,
    implied_volatility_from_a_transformed_rational_guess_with_limited_iterations as limited, *,
};
use std::error::Error;

/// Price, forward, strike and expiry, kind and limit, and what the Rust over document 01's functions answers: the
/// volatility's bits, branch, ending and steps.
type Row = ([f64; 4], OptionType, i32, (u64, u8, u8, u32));

#[rustfmt::skip]
const ROWS: [Row; 9] = [
    ([150.0, 100.0, 200.0, 4.0], Call, 2, (0x7FDF_FFFF_FFFF_FFFF, 0, 0, 0)),
    ([10.0, 100.0, 95.0, 1.0], Call, 2, (0x3FC7_D1E8_57E3_FCEB, 2, 2, 2)),
    ([0.001, 100.0, 150.0, 0.25], Call, 100, (0x3FCE_0989_0DD7_1F19, 1, 1, 5)),
    ([15.0, 100.0, 110.0, 2.0], Call, 3, (0x3FD5_6212_CD73_776C, 3, 2, 3)),
    ([80.0, 100.0, 110.0, 2.0], Put, 2, (0x3FF8_21DD_7215_CD41, 3, 2, 2)),
    ([99.0, 100.0, 110.0, 1.0], Call, 3, (0x4014_BCDC_A3A4_70A9, 4, 1, 2)),
    ([60.0, 100.0, 110.0, 2.0], Call, 100, (0x3FF3_CBA5_CE90_F90F, 3, 2, 100)),
    ([1.0, 100.0, 100.0, 1.0], Call, 0, (0x3F99_AB40_280E_BA43, 3, 2, 0)),
    ([7.965567455405804, 100.0, 100.0, 1.0], Call, 4, (0x3FC9_9999_9999_999F, 3, 1, 2)),
];

/// Refused with 7 after three completed steps.
const SEVEN: [u64; 4] = [0x3D35_CFCC_A2C3_3114, 0x41DB_EC11_84BB_DFD4, 0x62DF_5AB2_7B0C_876F, 0x3F6F_4022_3F58_94A0];

fn plain(solution: Solution) -> (u64, u8, u8, u32) {
    (solution.volatility.to_bits(), solution.branch as u8, solution.ending as u8, solution.steps)
}

/// The same answer with a trail and without, lent or its own, and from the wrapper where the limit is its own.
#[test]
fn every_way_to_solve() {
    for ([price, forward, strike, expiry], kind, limit, expected) in ROWS {
        assert_eq!(limited(price, forward, strike, expiry, kind, limit).map(plain), Ok(expected));
        assert_eq!(solve(price, forward, strike, expiry, kind, limit, Original).map(plain), Ok(expected));
        let mut trail = vec![0; STEP_BYTES * limit as usize];
        assert_eq!(
            solve_with_trail(price, forward, strike, expiry, kind, limit, Original, &mut trail).map(plain),
            Ok(expected)
        );
        let run = solve_step_by_step(price, forward, strike, expiry, kind, limit, Original);
        assert_eq!(run.answer.map(plain), Ok(expected));
        assert!(run.trail.iter().copied().eq(steps(&trail, expected.3)));
        if limit == 2 {
            assert_eq!(wrapper(price, forward, strike, expiry, kind).map(f64::to_bits), Ok(expected.0));
        }
    }
}

/// A record's six floats are in the order of document 01, and the loop goes on from each s after.
#[test]
fn trail_records() {
    let run = solve_step_by_step(10.0, 100.0, 95.0, 1.0, Call, 100, Original);
    assert_eq!(run.trail.len(), 3);
    assert_eq!(run.trail.last().map(|step| step.s_after), run.answer.map(|solution| solution.volatility).ok());
    for pair in run.trail.windows(2) {
        assert_eq!(pair[0].s_after, pair[1].s);
        assert!(pair[0].left <= pair[1].left && pair[1].right <= pair[0].right);
    }
    for step in run.trail {
        // The option is in the money: its loop has the put, which normalised is the call at −|x|.
        let x = -ln(100.0 / 95.0);
        assert_eq!(Ok(step.price), normalised_black_call(x, step.s));
        assert_eq!(step.vega, normalised_vega(x, step.s));
    }
}

/// The records of a refusal's completed steps stand.
#[test]
fn refused_inside_a_loop() {
    let [price, forward, strike, expiry] = SEVEN.map(f64::from_bits);
    let refusal = Refusal { number: 7, steps: 3 };
    assert_eq!(limited(price, forward, strike, expiry, Call, 20), Err(refusal));
    let run = solve_step_by_step(price, forward, strike, expiry, Call, 20, Original);
    assert_eq!((run.answer, run.trail.len()), (Err(refusal), 3));
    assert!(refusal.to_string().ends_with("(after 3 completed steps)"));
    let mut book = [0xA5; 64];
    assert_eq!(file(price, forward, strike, expiry, Call, 20, Original, &mut book, 0), Err(refusal));
    assert_eq!(book, [0xA5; 64]);
    // With fewer steps it does not come so far.
    assert_eq!(limited(price, forward, strike, expiry, Call, 3).map(|solution| solution.steps), Ok(3));
}

#[test]
fn refusals_in_order() {
    let least = f64::from_bits(1);
    let number = |result: Result<Solution, Refusal>| result.map_err(|refusal| refusal.number);
    for (number_of, [price, forward, strike, expiry]) in [
        (1, [f64::INFINITY, 0.0, 0.0, 0.0]),
        (2, [1.0, -1.0, 0.0, 0.0]),
        (3, [1.0, 1.0, f64::NAN, 0.0]),
        (4, [1.0, 1.0, 1.0, least]),
    ] {
        assert_eq!(number(limited(price, forward, strike, expiry, Put, 9)), Err(number_of));
        assert_eq!(number(solve_with_trail(price, forward, strike, expiry, Put, 9, Original, &mut [])), Err(number_of));
        assert_eq!(number(solve_step_by_step(price, forward, strike, expiry, Put, 9, Original).answer), Err(number_of));
        assert_eq!(wrapper(price, forward, strike, expiry, Put).unwrap_err().number, number_of);
    }
    // Only a lent trail can be too short.
    assert_eq!(number(solve_with_trail(1.0, 1.0, 1.0, 1.0, Put, 1, Original, &mut [0; 47])), Err(21));
    assert_eq!(
        number(solve_with_trail(0.5, 1.0, 1.0, 1.0, Put, i32::MIN, Original, &mut [])).map(|solution| solution.steps),
        Ok(0)
    );
}

#[test]
fn words() {
    let meanings = Refusal::NUMBERS.map(|number| Refusal { number, steps: 0 }.meaning());
    for (i, meaning) in meanings.iter().enumerate() {
        assert!(!meanings[..i].contains(meaning));
    }
    let one = Refusal { number: 7, steps: 1 };
    let error: Box<dyn Error> = Box::new(one);
    assert_eq!(error.to_string(), format!("refused with 7: {} (after 1 completed step)", one.meaning()));
    assert_eq!(Refusal { number: 9, steps: 0 }.meaning(), "a number that document 01 does not have");
    assert_eq!(format!("{} {:>5}|", -Call, -Put), "Put  Call|");
    assert_eq!(format!("{Original}; {TextbookCaps:>20}|"), "the original library's rules;  the textbook's caps|");
}

#[test]
fn books() {
    let mut book = [0xA5; 9 * RECORD_BYTES + 63];
    for (k, ([price, forward, strike, expiry], kind, limit, _)) in (0..).zip(ROWS) {
        assert_eq!(file(price, forward, strike, expiry, kind, limit, Original, &mut book, k), Ok(k + 1));
    }
    assert_eq!(file(1.0, 1.0, 1.0, 1.0, Put, 2, Original, &mut book, 9).unwrap_err().number, 22);
    assert_eq!(file(1.0, 1.0, 1.0, 1.0, Put, 2, Original, &mut book, 10).unwrap_err().number, 23);
    let records_of = records(&book, 9).expect("nine slots");
    assert_eq!(records_of.len(), 9);
    for (k, (record, (floats, kind, limit, (volatility, branch, ending, steps)))) in records_of.zip(ROWS).enumerate() {
        assert_eq!([record.price(), record.forward(), record.strike(), record.expiry()], floats);
        assert_eq!((record.kind(), record.limit(), record.steps()), (Some(kind), limit, steps));
        assert_eq!(record.volatility().to_bits(), volatility);
        assert_eq!((record.branch(), record.ending()), (Branch::from_byte(branch), Ending::from_byte(ending)));
        assert_eq!(read(&book, 9, k as u64), Ok(record));
        assert_eq!(record.bytes()[..], book[64 * k..64 * k + 64]);
        assert_eq!(recheck(&book, 9, k as u64, Original), Ok(true));
        assert_eq!(line(k as u64, record.bytes()), format!("{k} {volatility:016X} {steps} {branch} {ending}\n"));
    }
    assert_eq!(records(&book, 10).unwrap_err().number, 23);
    assert_eq!(records(&book, u64::MAX).unwrap_err().number, 23);
    assert_eq!(records(&[], 0).map(|none| none.count()), Ok(0));
    // What stands outside the layout reads as none, and is refused.
    book[48..51].fill(9);
    let record = read(&book, 1, 0).expect("a slot");
    assert_eq!((record.kind(), record.branch(), record.ending()), (None, None, None));
    assert_eq!(recheck(&book, 1, 0, Original).unwrap_err().number, 24);
    assert_eq!(line(7, record.bytes()), "7 REF 24\n");
}
