//! solve, the book and relist's line through the safe crate: document 01's own values, under rule set 0.

use gintubalos::bits::*;
use gintubalos::bits::{implied_volatility_from_a_transformed_rational_guess as wrapper, solve_with_trail as solve};

const NAN_BITS: u64 = 0x7FF8_0000_0000_0000;

/// P1 to P6: price, forward, strike, expiry, kind, and the volatility's bits.
const ROWS: [([f64; 4], u8, u64); 6] = [
    ([150.0, 100.0, 200.0, 4.0], 1, 0x7FDF_FFFF_FFFF_FFFF),
    ([99.0, 200.0, 100.0, 1.0], 1, 0xFFEF_FFFF_FFFF_FFFF),
    ([0.0, 100.0, 200.0, 1.0], 1, 0),
    ([150.0, 100.0, 200.0, 0.25], 1, 0x7FF0_0000_0000_0000),
    ([100.0, 200.0, 100.0, 4.0], 1, 0x7FEF_FFFF_FFFF_FFFF),
    ([-0.0, 100.0, 100.0, 1.0], 2, 0),
];

/// An option at the money with a fifth's volatility over a year: 100 (2 Φ(0.1) − 1).
const USUAL: [f64; 4] = [7.965567455405804, 100.0, 100.0, 1.0];

#[test]
fn table_rows() {
    for (floats, kind, volatility) in ROWS {
        let [price, forward, strike, expiry] = floats.map(f64::to_bits);
        let mut trail = [0xA5; 96];
        assert_eq!(solve(price, forward, strike, expiry, kind, 2, 0, &mut trail), (volatility, 0));
        assert_eq!(wrapper(price, forward, strike, expiry, kind, 0), (volatility, 0));
        // P12: a trail of 95 bytes is too short.
        assert_eq!(solve(price, forward, strike, expiry, kind, 2, 0, &mut trail[..95]), (NAN_BITS, 21));
        assert_eq!(trail, [0xA5; 96]);
    }
}

#[test]
fn trail() {
    let [price, forward, strike, expiry] = USUAL.map(f64::to_bits);
    let mut trail = [0xA5; 4 * 48 + 1];
    let (volatility, outcome) = solve(price, forward, strike, expiry, 1, 4, 0, &mut trail);
    assert!((f64::from_bits(volatility) - 0.2).abs() < 1e-15);
    let Outcome { number, branch, ending, steps } = outcome.into();
    // At the money the lower branches have no room.
    assert_eq!((number, branch), (0, 3));
    assert!(ending == 1 && steps < 4 || ending == 2 && steps == 4);
    // The last record's s after, and the bytes behind it.
    let end = 48 * steps as usize;
    assert_eq!(trail[end - 8..end], volatility.to_le_bytes());
    assert!(trail[end..].iter().all(|byte| *byte == 0xA5));
    // No limit, no step, no trail.
    let (_, outcome) = solve(price, forward, strike, expiry, 1, i32::MIN, 0, &mut []);
    assert_eq!(Outcome::from(outcome), Outcome { number: 0, branch: 3, ending: 2, steps: 0 });
}

#[test]
fn refusals_in_order() {
    let [nan, one, least] = [f64::NAN, 1.0, f64::from_bits(1)].map(f64::to_bits);
    let of = |price, forward, strike, expiry, kind| solve(price, forward, strike, expiry, kind, 1, 0, &mut []);
    assert_eq!(of(nan, 0, 0, 0, 0), (NAN_BITS, 24));
    assert_eq!(of(nan, 0, 0, 0, 1), (NAN_BITS, 1));
    assert_eq!(of(one, 0, 0, 0, 1), (NAN_BITS, 2));
    assert_eq!(of(one, one, nan, 0, 2), (NAN_BITS, 3));
    assert_eq!(of(one, one, one, least, 2), (NAN_BITS, 4));
    assert_eq!(of(one, one, one, one, 2), (NAN_BITS, 21));
    assert_eq!(wrapper(one, one, one, least, 1, 0), (NAN_BITS, 4));
}

#[test]
fn book() {
    let [price, forward, strike, expiry] = USUAL.map(f64::to_bits);
    let mut book = [0xA5; 2 * 64 + 63];
    assert_eq!(file(price, forward, strike, expiry, 2, -3, 0, &mut book, 0), (1, 0));
    assert_eq!(file(price, forward, strike, expiry, 1, 2, 0, &mut book, 1), (2, 0));
    assert_eq!(book[..8], price.to_le_bytes());
    assert_eq!(book[40..51], [253, 255, 255, 255, 0, 0, 0, 0, 2, 3, 2]);
    assert_eq!(book[51..64], [0; 13]);
    assert_eq!(book[128..], [0xA5; 63]);
    let before = book;
    assert_eq!(file(price, forward, strike, expiry, 1, 2, 0, &mut book, 2), (0, 22));
    assert_eq!(file(price, forward, strike, expiry, 1, 2, 0, &mut book, 3), (0, 23));
    assert_eq!(file(price, forward, strike, 0, 1, 2, 0, &mut book, 3), (0, 4));
    assert_eq!(file(price, forward, strike, 0, 3, 2, 0, &mut book, 3), (0, 24));
    assert_eq!(book, before);
    assert_eq!((read(&book, 2, 0), read(&book, 2, 1)), ((0, 0), (64, 0)));
    assert_eq!((read(&book, 2, 2), read(&book, 3, 0), read(&book, u64::MAX, 1)), ((0, 23), (0, 23), (0, 23)));
    assert_eq!((recheck(&book, 2, 0, 0), recheck(&book, 2, 1, 0)), ((1, 0), (1, 0)));
    assert_eq!(recheck(&book, 2, 2, 0), (0, 23));
    book[64 + 32] ^= 1;
    assert_eq!(recheck(&book, 2, 1, 0), (0, 0));
    book[64 + 63] = 1;
    assert_eq!(recheck(&book, 2, 1, 0), (0, 24));
}

/// Document 01's three lines, a short part, and an `out` that is too short.
#[test]
fn lines() {
    let expected = ["0 7FDFFFFFFFFFFFFF 0 0 0\n", "1 FFEFFFFFFFFFFFFF 0 0 0\n", "2 0000000000000000 0 0 0\n"];
    for (i, (floats, kind, _)) in ROWS[..3].iter().enumerate() {
        let mut record = [0; 64];
        for (j, x) in floats.iter().enumerate() {
            record[8 * j..8 * j + 8].copy_from_slice(&x.to_le_bytes());
        }
        (record[40], record[48]) = (2, *kind);
        let mut out = [0xA5; 129];
        assert_eq!(line(i as u64, &record, &mut out), 25);
        assert_eq!(out[..25], *expected[i].as_bytes());
        assert_eq!(out[25..], [0xA5; 104]);
        assert_eq!(line(i as u64, &record, &mut [0; 127]), 0);
        assert_eq!(line(u64::MAX, &record[..63], &mut out), 28);
        assert_eq!(out[..28], *b"18446744073709551615 REF 23\n");
    }
}
