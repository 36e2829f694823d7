//! The board's 3,076 bytes as their layout says: quote i, in the order of arrival, at byte 12 × i, its series (u32) and its
//! volatility's bits (u64), 256 places; then how many are live (u32), all little-endian. What any bytes answer is here,
//! too, and how each call changes them.

use crate::board::{Answer, Call, Quote, MOST, NONE};
use rust_over_rules::elementary::NAN_BITS;

const PLACE: usize = 12;
pub const COUNT_AT: usize = PLACE * MOST;
pub const BYTES: usize = COUNT_AT + 4;

pub type Bytes = [u8; BYTES];
type Place = [u8; PLACE];

fn place_of(quote: Quote) -> Place {
    let mut place = [0; PLACE];
    place[..4].copy_from_slice(&quote.series.to_le_bytes());
    place[4..].copy_from_slice(&quote.volatility.to_le_bytes());
    place
}

fn quote_in(place: &Place) -> Quote {
    let [a, b, c, d, bits @ ..] = *place;
    Quote { series: u32::from_le_bytes([a, b, c, d]), volatility: u64::from_le_bytes(bits) }
}

/// The board of these live quotes: zeros in the places behind them.
pub fn bytes_of(live: &[Quote]) -> Bytes {
    let mut bytes = [0; BYTES];
    bytes.chunks_exact_mut(PLACE).zip(live).for_each(|(place, quote)| place.copy_from_slice(&place_of(*quote)));
    put_count(&mut bytes, live.len() as u32);
    bytes
}

pub fn put_count(bytes: &mut Bytes, count: u32) {
    bytes[COUNT_AT..].copy_from_slice(&count.to_le_bytes());
}

/// The count as it stands there.
pub fn count_in(bytes: &Bytes) -> u32 {
    u32::from_le_bytes(std::array::from_fn(|i| bytes[COUNT_AT + i]))
}

/// What all places hold, the live ones first and then those behind them; and how many are live: a count above 256 counts as
/// 256.
pub fn quotes_in(bytes: &Bytes) -> (Vec<Quote>, usize) {
    let (places, _) = bytes[..COUNT_AT].as_chunks();
    (places.iter().map(quote_in).collect(), count_in(bytes).min(MOST as u32) as usize)
}

/// The answer that any bytes have, with what the call leaves in them.
pub fn answer(bytes: &mut Bytes, call: Call) -> Answer {
    let (mut quotes, live) = quotes_in(bytes);
    let found = |series| quotes[..live].iter().position(|quote| quote.series == series);
    match call {
        Call::Arrive(quote) => {
            let number = match found(quote.series) {
                _ if quote.float().is_nan() => 33,
                Some(_) => 34,
                None if live == MOST => 35,
                None => 0,
            };
            if number == 0 {
                quotes[live] = quote;
                put(bytes, &quotes, live + 1);
            }
            (number, NONE)
        }
        // The live ones behind it move down a place, and the one that is freed becomes zero.
        Call::Leave(series) => {
            let Some(place) = found(series) else { return (0, NONE) };
            quotes.remove(place);
            quotes.insert(live - 1, NONE);
            put(bytes, &quotes, live - 1);
            (1, NONE)
        }
        Call::Highest => highest(&quotes[..live]).map_or((0, NONE), |quote| (1, quote)),
    }
}

fn put(bytes: &mut Bytes, quotes: &[Quote], live: usize) {
    *bytes = bytes_of(quotes);
    put_count(bytes, live as u32);
}

/// A later quote is shown only if it is above: no NaN is above another or below it.
fn highest(live: &[Quote]) -> Option<Quote> {
    let mut shown = *live.first()?;
    for later in live {
        if shown.float() < later.float() {
            shown = *later;
        }
    }
    if shown.float().is_nan() {
        shown.volatility = NAN_BITS;
    }
    Some(shown)
}

#[cfg(test)]
mod tests {
    use super::*;
    use crate::{board::Board, board_lists::random_list};
    use random_words::Words;

    #[test]
    fn a_quote_has_its_bytes() {
        let bytes = bytes_of(&[NONE, Quote { series: 0x0102_0304, volatility: 0x0506_0708_090A_0B0C }]);
        assert_eq!(bytes[12..24], [4, 3, 2, 1, 12, 11, 10, 9, 8, 7, 6, 5]);
        assert_eq!(bytes[3072..], [2, 0, 0, 0]);
        assert!(bytes[..12].iter().chain(&bytes[24..3072]).all(|byte| *byte == 0));
    }

    /// From an empty board on, the bytes and the list of accepted arrivals have the same answers, and say the same.
    #[test]
    fn both_models_agree() {
        let mut words = Words::new(1, "both models", 0);
        for _ in 0..20_000 {
            let (mut board, mut bytes) = (Board::default(), [0; BYTES]);
            for call in random_list(&mut words) {
                assert_eq!(board.answer(call), answer(&mut bytes, call), "{call:?}");
                assert_eq!(bytes_of(&board.live_quotes()), bytes);
            }
        }
    }
}
