//! The live board's calls on any bytes: their answers, every byte of the board after each call, and the bytes about it.

use crate::{
    board::{Answer, Call, Quote, MOST, NONE},
    board_calls::{text_of_call, text_of_quote, Lent},
    board_layout::{answer, bytes_of, count_in, put_count, quotes_in, Bytes, BYTES},
    board_lists::arrive,
    boards::{causes_of, CHECKS},
    edges::{INFINITY, NANS, SIGN},
    tally::Tally,
};
use random_words::Words;
use rust_over_rules::elementary::NAN_BITS;

/// Compares calls on a board, up to the first difference.
fn compare(tally: &mut Tally, board: &Bytes, calls: &[Call]) {
    let (mut bytes, mut lent) = (*board, Lent::new(board));
    for (i, &call) in calls.iter().enumerate() {
        let count = count_in(&bytes);
        let (quotes, live) = quotes_in(&bytes);
        let expected = answer(&mut bytes, call);
        tally.meet_causes(&causes_of(call, &quotes[..live]));
        count_cases(tally, &Compared { call, answer: expected, count, quotes: &quotes, live });
        let before = || {
            let last: Vec<String> = calls[..i].iter().map(|call| text_of_call(*call)).collect();
            let first: Vec<String> = quotes.iter().take(4).map(|quote| text_of_quote(*quote)).collect();
            format!("count {count}, places {}, .., after {}", first.join("; "), last.join(", "))
        };
        if !lent.compare(tally, call, (expected, &bytes), "the layout", before) {
            return;
        }
    }
}

// ---- the cases

/// A call, the reference's answer, and the board before it.
struct Compared<'a> {
    call: Call,
    answer: Answer,
    /// As it stands there.
    count: u32,
    /// Of all places.
    quotes: &'a [Quote],
    live: usize,
}

impl Compared<'_> {
    fn is_number(&self, number: u8) -> bool {
        matches!(self.call, Call::Arrive(_)) && self.answer.0 == number
    }

    /// The series that leaves, or doesn't.
    fn leaves(&self, whether: bool) -> Option<u32> {
        match self.call {
            Call::Leave(series) if (self.answer.0 == 1) == whether => Some(series),
            _ => None,
        }
    }

    fn shows(&self) -> bool {
        matches!(self.call, Call::Highest) && self.answer.0 == 1
    }

    fn live_quotes(&self) -> &[Quote] {
        &self.quotes[..self.live]
    }

    /// Whether a quote of the series stands behind the live ones.
    fn is_behind(&self, series: u32) -> bool {
        self.quotes[self.live..].iter().any(|quote| quote.series == series)
    }

    /// Whether the place behind the live ones has other bytes than zeros.
    fn has_bytes_behind(&self) -> bool {
        self.quotes.get(self.live).is_some_and(|quote| *quote != NONE)
    }

    fn is_twice(&self, series: u32) -> bool {
        self.live_quotes().iter().filter(|quote| quote.series == series).count() > 1
    }
}

/// Counts of which a byte alone, or two, say another one.
fn is_long(count: u32) -> bool {
    count > 65535 && (count as u16) < 256
}

type Case = (&'static str, fn(&Compared) -> bool);

const CASES: [Case; 22] = [
    ("count above 256: one leaves", |met| met.leaves(true).is_some() && met.count > 256),
    ("count above 256: none leaves", |met| met.leaves(false).is_some() && met.count > 256),
    ("count above 256: 33", |met| met.is_number(33) && met.count > 256),
    ("count above 256: 34", |met| met.is_number(34) && met.count > 256),
    ("count above 256: 35", |met| met.is_number(35) && met.count > 256),
    ("count above 256: one is shown", |met| met.shows() && met.count > 256),
    ("count 4294967295: one leaves", |met| met.leaves(true).is_some() && met.count == u32::MAX),
    ("count 4294967295: 35", |met| met.is_number(35) && met.count == u32::MAX),
    ("count above 65535 with less in its lower half: one leaves", |met| {
        met.leaves(true).is_some() && is_long(met.count)
    }),
    ("count above 65535 with less in its lower half: 35", |met| met.is_number(35) && is_long(met.count)),
    ("one of a series that is live twice leaves", |met| met.leaves(true).is_some_and(|series| met.is_twice(series))),
    ("a series that is live twice: 34", |met| {
        met.is_number(34) && matches!(met.call, Call::Arrive(quote) if met.is_twice(quote.series))
    }),
    ("one arrives whose series stands behind the live ones", |met| {
        met.is_number(0) && matches!(met.call, Call::Arrive(quote) if met.is_behind(quote.series))
    }),
    ("none leaves of a series that stands behind the live ones", |met| {
        met.leaves(false).is_some_and(|series| met.is_behind(series))
    }),
    ("one arrives where bytes are not zero", |met| met.is_number(0) && met.has_bytes_behind()),
    ("one leaves before bytes that are not zero", |met| met.leaves(true).is_some() && met.has_bytes_behind()),
    ("a NaN leaves", |met| {
        let is_nan = |series| {
            let first = met.live_quotes().iter().find(|quote| quote.series == series);
            first.is_some_and(|quote| quote.float().is_nan())
        };
        met.leaves(true).is_some_and(is_nan)
    }),
    ("a NaN in the first place is shown", |met| met.shows() && met.live > 1 && met.quotes[0].float().is_nan()),
    ("a NaN of other bits is shown as 7FF8000000000000", |met| {
        met.shows() && met.quotes[0].float().is_nan() && met.quotes[0].volatility != NAN_BITS
    }),
    ("NaNs in later places are not shown", |met| {
        met.shows() && !met.quotes[0].float().is_nan() && met.live_quotes().iter().any(|quote| quote.float().is_nan())
    }),
    ("the first of a series that is live twice is not shown", |met| {
        let first = met.live_quotes().iter().find(|quote| quote.series == met.answer.1.series);
        met.shows() && first.is_some_and(|quote| quote.volatility != met.answer.1.volatility && !quote.float().is_nan())
    }),
    ("none is live among bytes that are not zero", |met| met.count == 0 && met.has_bytes_behind()),
];

fn count_cases(tally: &mut Tally, met: &Compared) {
    CASES.iter().filter(|(_, is_met)| is_met(met)).for_each(|(name, _)| tally.meet(name, ""));
}

/// Prints how often each case was met, and gives those that were not.
pub fn report(tally: &Tally) -> Vec<String> {
    let checks = tally.report_checks(&CHECKS, |_, _| true);
    [checks, tally.report_cases("calls on any bytes:", CASES.map(|(name, _)| name))].concat()
}

// ---- boards

/// About each border of the count, and of what a part of its bytes says.
const COUNTS: [u32; 20] = [
    0,
    1,
    2,
    3,
    4,
    254,
    255,
    256,
    257,
    258,
    511,
    512,
    65535,
    65536,
    65537,
    65791,
    1 << 24,
    1 << 31,
    u32::MAX - 1,
    u32::MAX,
];

fn with_count(mut board: Bytes, count: u32) -> Bytes {
    put_count(&mut board, count);
    board
}

/// 256 quotes, of the first of these series and volatilities by turns.
fn board_of(series: &[u32], volatilities: &[u64]) -> Bytes {
    let quote = |i: usize| Quote { series: series[i % series.len()], volatility: volatilities[i % volatilities.len()] };
    bytes_of(&(0..MOST).map(quote).collect::<Vec<_>>())
}

/// Full boards: of different series, of one and of some that repeat; with usual volatilities, with NaNs in the first place, in
/// later ones and in all; zeros; and bytes that are no board's.
fn full_boards() -> Vec<Bytes> {
    let different: Vec<u32> = (1000..1256).collect();
    let usual: Vec<u64> = (0..16).map(|i| (f64::from(i) / 16.0).to_bits()).collect();
    let nan_first: Vec<u64> = [NANS[2]].into_iter().chain(usual.iter().copied().cycle().take(255)).collect();
    let nan_later: Vec<u64> = usual.iter().copied().chain(NANS).collect();
    let few = [0, SIGN, 0.2_f64.to_bits(), NANS[3], INFINITY, INFINITY | SIGN, 1];
    let mut all = vec![[0; BYTES], [0xFF; BYTES], std::array::from_fn(|i| (i * 167 + (i >> 8)) as u8)];
    for series in [&different[..], &[1000], &[1000, 1001, 1002], &[0]] {
        for volatilities in [&usual[..], &nan_first, &nan_later, &NANS, &few] {
            all.push(board_of(series, volatilities));
        }
    }
    all
}

/// Each call by itself: with series of the first live places, the last, the next one and those behind, and with others.
pub fn edges(tally: &mut Tally) {
    for board in full_boards() {
        for count in COUNTS {
            let board = with_count(board, count);
            let (quotes, live) = quotes_in(&board);
            let places = [0, 1, 2, 100, live.saturating_sub(1), live.min(MOST - 1), MOST - 1];
            let mut series: Vec<u32> = places.into_iter().map(|place| quotes[place].series).chain([0, 7]).collect();
            series.sort_unstable();
            series.dedup();
            for series in series {
                let nan = Call::Arrive(Quote { series, volatility: NANS[5] });
                for call in [Call::Leave(series), arrive(series, 0.5), arrive(series, f64::INFINITY), nan] {
                    compare(
                        tally,
                        &board,
                        &[call, Call::Highest, Call::Leave(series), arrive(series, -0.0), Call::Highest],
                    );
                }
            }
        }
    }
}

fn any_volatility(words: &mut Words) -> u64 {
    match words.below(8) {
        0 => words.choice(&NANS),
        1 => words.any() & SIGN,
        2 => words.any(),
        3 => words.choice(&[INFINITY, INFINITY | SIGN, 1, 1 | SIGN]),
        4 => 0.2_f64.to_bits() + words.below(3),
        _ => words.uniform(0.05, 0.9).to_bits(),
    }
}

/// Of these many series, of all where there are none.
fn any_series(words: &mut Words, of: u64) -> u32 {
    match of {
        0 => words.any() as u32,
        _ => words.below(of) as u32,
    }
}

/// Quotes in all places or in the live ones, and bytes of any kind behind them; or any bytes.
fn any_board(words: &mut Words, series: u64) -> Bytes {
    let count = match words.below(4) {
        0 => words.choice(&COUNTS),
        1 => words.any() as u32 >> words.below(32),
        _ => words.below(257) as u32,
    };
    if words.below(8) == 0 {
        return with_count(std::array::from_fn(|_| words.any() as u8), count);
    }
    let filled = if words.below(2) == 0 { MOST } else { count.min(MOST as u32) as usize };
    let quotes: Vec<Quote> =
        (0..filled).map(|_| Quote { series: any_series(words, series), volatility: any_volatility(words) }).collect();
    with_count(bytes_of(&quotes), count)
}

/// A series of one of the places, or another.
fn series_on(words: &mut Words, board: &Bytes, series: u64) -> u32 {
    let (quotes, live) = quotes_in(board);
    match words.below(4) {
        0 => any_series(words, series),
        1 => words.choice(&quotes).series,
        _ => words.choice(&quotes[..live.max(1)]).series,
    }
}

pub fn random(words: &mut Words, tally: &mut Tally) {
    let series = words.choice(&[0, 0, 4, 200, 100_000]);
    let board = any_board(words, series);
    let calls: Vec<Call> = (0..1 + words.below(6))
        .map(|_| {
            let on = series_on(words, &board, series);
            match words.below(3) {
                0 => Call::Arrive(Quote { series: on, volatility: any_volatility(words) }),
                1 => Call::Leave(on),
                _ => Call::Highest,
            }
        })
        .collect();
    compare(tally, &board, &calls);
}

#[cfg(test)]
mod tests {
    use super::*;

    /// The fixed boards alone meet every case.
    #[test]
    fn edges_meet_every_case() {
        let mut tally = Tally::default();
        edges(&mut tally);
        assert!(report(&tally).is_empty());
    }
}
