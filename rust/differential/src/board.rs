//! Document 02's third request, the live board, written from its text: every accepted arrival is kept with whether it has
//! left, and each answer is worked out from them afresh.

/// "Keep up to 256 live quotes".
pub const MOST: usize = 256;

/// "Each a series number (u32) and a volatility": its bits.
#[derive(Clone, Copy, Debug, PartialEq, Eq)]
pub struct Quote {
    pub series: u32,
    pub volatility: u64,
}

/// "Highest on an empty board says none": both words are 0 then.
pub const NONE: Quote = Quote { series: 0, volatility: 0 };

impl Quote {
    /// "They are compared as floats".
    pub fn float(self) -> f64 {
        f64::from_bits(self.volatility)
    }
}

/// "Calls: arrive, leave, and highest".
#[derive(Clone, Copy, Debug)]
pub enum Call {
    Arrive(Quote),
    Leave(u32),
    Highest,
}

/// What a call answers: arrive the number of a refusal or 0, leave 1 or 0 where the series isn't live, highest 1 and the
/// quote or 0.
pub type Answer = (u8, Quote);

/// An accepted arrival.
struct Accepted {
    quote: Quote,
    has_left: bool,
}

/// What the calls so far have left, from an empty board on.
#[derive(Default)]
pub struct Board {
    accepted: Vec<Accepted>,
}

impl Board {
    pub fn answer(&mut self, call: Call) -> Answer {
        match call {
            Call::Arrive(quote) => (self.arrive(quote), NONE),
            Call::Leave(series) => (self.leave(series).into(), NONE),
            Call::Highest => self.highest().map_or((0, NONE), |quote| (1, quote)),
        }
    }

    /// "The accepted arrivals that haven't left since", in their order.
    fn live(&self) -> impl Iterator<Item = Quote> + '_ {
        self.accepted.iter().filter(|arrival| !arrival.has_left).map(|arrival| arrival.quote)
    }

    pub fn live_quotes(&self) -> Vec<Quote> {
        self.live().collect()
    }

    /// All accepted arrivals in their order, and whether each has left.
    pub fn accepted(&self) -> impl Iterator<Item = (Quote, bool)> + '_ {
        self.accepted.iter().map(|arrival| (arrival.quote, arrival.has_left))
    }

    /// "33, NaN volatility; then 34, series already live; then 35, 256 are live."
    fn arrive(&mut self, quote: Quote) -> u8 {
        if quote.float().is_nan() {
            33
        } else if self.live().any(|live| live.series == quote.series) {
            34
        } else if self.live().count() == MOST {
            35
        } else {
            self.accepted.push(Accepted { quote, has_left: false });
            0
        }
    }

    /// "Leaving a series that isn't live says so and changes nothing."
    fn leave(&mut self, series: u32) -> bool {
        match self.accepted.iter_mut().find(|arrival| arrival.quote.series == series && !arrival.has_left) {
            Some(arrival) => {
                arrival.has_left = true;
                true
            }
            None => false,
        }
    }

    /// "Of equal volatilities the earliest arrival is shown": the first one that no other is above.
    fn highest(&self) -> Option<Quote> {
        self.live().find(|quote| self.live().all(|other| other.float() <= quote.float()))
    }
}

#[cfg(test)]
mod tests {
    use super::*;

    fn quote(series: u32, volatility: f64) -> Quote {
        Quote { series, volatility: volatility.to_bits() }
    }

    fn board(quotes: &[Quote]) -> Board {
        let mut board = Board::default();
        quotes.iter().for_each(|quote| assert_eq!(board.arrive(*quote), 0));
        board
    }

    #[test]
    fn the_earliest_of_equal_ones_is_shown() {
        let [a, b, c] = [quote(1, 0.3), quote(2, 0.3), quote(3, 0.2)];
        let mut board = board(&[c, a, b]);
        assert_eq!(board.highest(), Some(a));
        assert!(board.leave(1) && !board.leave(1));
        assert_eq!(board.highest(), Some(b));
        assert_eq!(board.arrive(a), 0);
        assert_eq!(board.highest(), Some(b));
    }

    #[test]
    fn zeros_are_equal() {
        for [first, second] in [[0.0, -0.0], [-0.0, 0.0]] {
            let shown = quote(7, first);
            assert_eq!(board(&[quote(1, -1.0), shown, quote(8, second)]).highest(), Some(shown));
        }
    }

    #[test]
    fn refusals_have_their_order() {
        let mut board = Board::default();
        assert_eq!((board.highest(), board.leave(0)), (None, false));
        assert_eq!(board.arrive(quote(0, f64::NAN)), 33);
        for i in 0..256 {
            assert_eq!(board.arrive(quote(i, 0.2)), 0);
            assert_eq!([board.arrive(quote(i, f64::NAN)), board.arrive(quote(i, 0.3))], [33, 34]);
        }
        assert_eq!([f64::NAN, 0.3].map(|volatility| board.arrive(quote(256, volatility))), [33, 35]);
        assert!(board.leave(100));
        assert_eq!([256, 257].map(|series| board.arrive(quote(series, 0.3))), [0, 35]);
    }
}
