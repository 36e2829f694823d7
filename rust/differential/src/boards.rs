//! The live board beside document 02's: over lists of calls from an empty board each answer, and after each call every byte
//! of the board and the bytes about it; and how often each case was met that is to show a fault.

use crate::{
    board::{Answer, Board, Call, Quote, MOST},
    board_calls::{text_of_call, Lent},
    board_layout::{bytes_of, BYTES},
    board_lists::{fixed, random_list, short_lists},
    causes::found,
    edges::SIGN,
    tally::Tally,
};
use random_words::Words;

/// What refuses an arrival, each cause looked for alone.
pub const CHECKS: [&str; 3] = ["33", "34", "35"];

pub fn causes_of(call: Call, live: &[Quote]) -> Vec<&'static str> {
    let Call::Arrive(quote) = call else { return Vec::new() };
    let is_live = live.iter().any(|other| other.series == quote.series);
    found(CHECKS, [quote.float().is_nan(), is_live, live.len() == MOST])
}

// ---- the comparison

/// Compares each call of a list, up to the first difference: what comes after it rests on another board.
fn compare(tally: &mut Tally, calls: &[Call]) {
    let (mut board, mut lent) = (Board::default(), Lent::new(&[0; BYTES]));
    let (mut live, mut most) = (Vec::new(), 0);
    for (i, &call) in calls.iter().enumerate() {
        let expected = board.answer(call);
        let after = board.live_quotes();
        tally.meet_causes(&causes_of(call, &live));
        count_cases(tally, &Compared { call, answer: expected, board: &board, live: &live, most });
        let before = || {
            let last: Vec<String> = calls[i.saturating_sub(8)..i].iter().map(|call| text_of_call(*call)).collect();
            format!("call {i} of a list, {} live, after {}", live.len(), last.join(", "))
        };
        if !lent.compare(tally, call, (expected, &bytes_of(&after)), "document 02", before) {
            return;
        }
        most = most.max(after.len());
        live = after;
    }
}

pub fn random(words: &mut Words, tally: &mut Tally) {
    compare(tally, &random_list(words));
}

pub fn fixed_lists(tally: &mut Tally) {
    fixed().iter().for_each(|calls| compare(tally, calls));
}

/// Every short list that begins with one of three parts of the few calls.
pub fn every_short_list<const PART: usize>(tally: &mut Tally) {
    (4 * PART..4 * PART + 4).for_each(|first| short_lists(first, |calls| compare(tally, calls)));
}

// ---- the cases

/// A call, the reference's answer, and what was before it.
struct Compared<'a> {
    call: Call,
    answer: Answer,
    /// After the call.
    board: &'a Board,
    live: &'a [Quote],
    /// As many as were live at a time.
    most: usize,
}

impl Compared<'_> {
    /// The quote that arrives.
    fn arrives(&self) -> Option<Quote> {
        match self.call {
            Call::Arrive(quote) if self.answer.0 == 0 => Some(quote),
            _ => None,
        }
    }

    /// The place of the quote that leaves a full board.
    fn leaves_full(&self) -> Option<usize> {
        match self.call {
            Call::Leave(series) if self.live.len() == MOST => self.live.iter().position(|quote| quote.series == series),
            _ => None,
        }
    }

    /// The series that doesn't leave.
    fn stays(&self) -> Option<u32> {
        match self.call {
            Call::Leave(series) if self.answer.0 == 0 => Some(series),
            _ => None,
        }
    }

    fn has_left(&self, series: u32) -> bool {
        self.board.accepted().any(|(quote, has_left)| has_left && quote.series == series)
    }

    /// The quote that is shown.
    fn shown(&self) -> Option<Quote> {
        matches!(self.call, Call::Highest).then_some(self.answer.1).filter(|_| self.answer.0 == 1)
    }

    fn shows_none(&self) -> bool {
        matches!(self.call, Call::Highest) && self.answer.0 == 0
    }

    /// Whether one is shown, and another live quote has an equal volatility, of these bits.
    fn is_equal(&self, of: impl Fn(u64) -> bool) -> bool {
        self.shown().is_some_and(|shown| {
            let equal = |quote: &&Quote| quote.series != shown.series && quote.float() == shown.float();
            self.live.iter().filter(equal).any(|quote| of(quote.volatility))
        })
    }

    /// Whether these bits are shown, and another live quote has those.
    fn is_beside(&self, shown: u64, other: u64) -> bool {
        self.has_shown(|bits| bits == shown) && self.is_equal(|bits| bits == other)
    }

    fn has_shown(&self, of: impl Fn(u64) -> bool) -> bool {
        self.shown().is_some_and(|shown| of(shown.volatility))
    }

    /// Whether one is shown, and as high a one arrived before it and has left.
    fn is_next_of_equal_ones(&self) -> bool {
        self.shown().is_some_and(|shown| {
            let earlier = self.board.accepted().take_while(|&arrival| arrival != (shown, false));
            earlier.filter(|(_, has_left)| *has_left).any(|(quote, _)| quote.float() == shown.float())
        })
    }

    fn is_refused_nan(&self, of: impl Fn(u64) -> bool) -> bool {
        matches!(self.call, Call::Arrive(quote) if quote.float().is_nan() && of(quote.volatility))
    }
}

const QUIET: u64 = 1 << 51;

type Case = (&'static str, fn(&Compared) -> bool);

const CASES: [Case; 32] = [
    ("the 256th arrives", |met| met.arrives().is_some() && met.live.len() == MOST - 1),
    ("one arrives at a place that was left", |met| met.arrives().is_some() && met.live.len() < met.most),
    ("a board that was full is full again", |met| {
        met.arrives().is_some() && (met.live.len(), met.most) == (MOST - 1, MOST)
    }),
    ("a series that has left arrives again", |met| met.arrives().is_some_and(|quote| met.has_left(quote.series))),
    ("series 0 arrives", |met| met.arrives().is_some_and(|quote| quote.series == 0)),
    ("series 4294967295 arrives", |met| met.arrives().is_some_and(|quote| quote.series == u32::MAX)),
    ("the first of 256 leaves", |met| met.leaves_full() == Some(0)),
    ("one amidst 256 leaves", |met| matches!(met.leaves_full(), Some(1..=254))),
    ("the last of 256 leaves", |met| met.leaves_full() == Some(MOST - 1)),
    ("the only one leaves", |met| matches!(met.call, Call::Leave(_)) && met.answer.0 == 1 && met.live.len() == 1),
    ("none leaves, the board is empty", |met| met.stays().is_some() && met.live.is_empty()),
    ("none leaves, 256 are live", |met| met.stays().is_some() && met.live.len() == MOST),
    ("none leaves, the series has left before", |met| met.stays().is_some_and(|series| met.has_left(series))),
    ("none leaves, the series was never live", |met| {
        met.stays().is_some_and(|series| !met.has_left(series)) && !met.live.is_empty()
    }),
    ("series 0 does not leave", |met| met.stays() == Some(0)),
    ("none is shown, none was live before", |met| met.shows_none() && met.most == 0),
    ("none is shown, all have left", |met| met.shows_none() && met.most > 0),
    ("none is shown, 256 were live", |met| met.shows_none() && met.most == MOST),
    ("one of 256 is shown", |met| met.shown().is_some() && met.live.len() == MOST),
    ("the first of some is shown", |met| met.live.len() > 1 && met.shown() == met.live.first().copied()),
    ("the last of some is shown", |met| met.live.len() > 1 && met.shown() == met.live.last().copied()),
    ("the earliest of equal ones is shown", |met| met.is_equal(|_| true)),
    ("the earliest of equal ones is shown, an earlier one has left", |met| {
        met.is_equal(|_| true) && met.is_next_of_equal_ones()
    }),
    ("+0 is shown, a later -0 is not", |met| met.is_beside(0, SIGN)),
    ("-0 is shown, a later +0 is not", |met| met.is_beside(SIGN, 0)),
    ("infinity is shown", |met| met.has_shown(|bits| f64::from_bits(bits) == f64::INFINITY)),
    ("-infinity is shown", |met| met.has_shown(|bits| f64::from_bits(bits) == f64::NEG_INFINITY)),
    ("a subnormal is shown", |met| met.has_shown(|bits| f64::from_bits(bits).is_subnormal())),
    ("a finite one below 0 is shown", |met| met.has_shown(|bits| (f64::MIN..0.0).contains(&f64::from_bits(bits)))),
    ("a quiet NaN is refused", |met| met.is_refused_nan(|bits| bits & QUIET != 0)),
    ("a signalling NaN is refused", |met| met.is_refused_nan(|bits| bits & QUIET == 0)),
    ("a NaN with a sign is refused", |met| met.is_refused_nan(|bits| bits & SIGN != 0)),
];

fn count_cases(tally: &mut Tally, met: &Compared) {
    CASES.iter().filter(|(_, is_met)| is_met(met)).for_each(|(name, _)| tally.meet(name, ""));
}

/// Prints how often each case was met, and gives those that were not.
pub fn report(tally: &Tally) -> Vec<String> {
    let checks = tally.report_checks(&CHECKS, |_, _| true);
    [checks, tally.report_cases("calls of lists from an empty board:", CASES.map(|(name, _)| name))].concat()
}

#[cfg(test)]
mod tests {
    use super::*;

    /// The fixed lists and the short ones alone meet every case.
    #[test]
    fn edges_meet_every_case() {
        let mut tally = Tally::default();
        [fixed_lists, every_short_list::<0>].into_iter().for_each(|edges| edges(&mut tally));
        assert!(report(&tally).is_empty());
    }
}
