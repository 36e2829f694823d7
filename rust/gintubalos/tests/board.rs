//! The live board: the order of its refusals, what each leaves, zeros, infinities and equal volatilities, every byte of its
//! layout, and bytes that were never a board's.

use gintubalos::{bits, *};

const NAN_BITS: u64 = 0x7FF8_0000_0000_0000;

const INFINITY: f64 = f64::INFINITY;

/// NaNs: quiet and signalling, of either sign.
const NANS: [u64; 4] = [NAN_BITS, 0xFFF8_0000_0000_0001, 0x7FF0_0000_0000_0001, 0xFFFF_FFFF_FFFF_FFFF];

type Bytes = [u8; BOARD_BYTES];

/// A board on which these quotes have arrived.
fn board(quotes: &[(u32, f64)]) -> Board {
    let mut board = Board::new();
    for &(series, volatility) in quotes {
        assert_eq!(board.arrive(series, volatility), Ok(()), "{series} {volatility}");
    }
    board
}

/// The series 0 to 255, each with the volatility of its number.
fn full_board() -> Board {
    board(&(0..256).map(|series| (series, series.into())).collect::<Vec<_>>())
}

/// The bytes by the documented layout: some quotes and zeros behind them, with any count.
fn bytes(quotes: &[(u32, u64)], count: u32) -> Bytes {
    let mut bytes = [0; BOARD_BYTES];
    for (place, (series, volatility)) in bytes.chunks_mut(12).zip(quotes) {
        place[..4].copy_from_slice(&series.to_le_bytes());
        place[4..].copy_from_slice(&volatility.to_le_bytes());
    }
    bytes[3072..].copy_from_slice(&count.to_le_bytes());
    bytes
}

/// The same with the quotes' own count and volatilities as floats.
fn live(quotes: &[(u32, f64)]) -> Bytes {
    let quotes: Vec<_> = quotes.iter().map(|&(series, volatility)| (series, volatility.to_bits())).collect();
    bytes(&quotes, quotes.len() as u32)
}

/// The highest quote's series and its volatility's bits.
fn highest(board: &Board) -> Option<(u32, u64)> {
    board.highest().map(|quote| (quote.series, quote.volatility.to_bits()))
}

fn series(board: &Board) -> Vec<u32> {
    board.iter().map(|quote| quote.series).collect()
}

/// Refused with this number, and not a byte is another one.
fn refused(board: &mut Board, series: u32, volatility: u64, number: u8) {
    let before = *board.as_bytes();
    let answer = board.arrive(series, f64::from_bits(volatility));
    assert_eq!(answer, Err(Refusal { number, steps: 0 }), "{series} {volatility:X}");
    let mut after = before;
    assert_eq!(bits::board_arrive(&mut after, series, volatility), number);
    assert_eq!((board.as_bytes(), &after), (&before, &before), "{series} {volatility:X}");
}

/// The series is not live, and not a byte is another one.
fn not_live(board: &mut Board, series: u32) {
    let before = *board.as_bytes();
    assert!(!board.leave(series), "{series}");
    assert_eq!(board.as_bytes(), &before);
}

#[test]
fn empty() {
    let mut board = Board::new();
    assert_eq!(board.as_bytes(), &[0; BOARD_BYTES]);
    assert_eq!([&Board::default(), &Board::from_bytes([0; BOARD_BYTES])], [&board; 2]);
    assert_eq!((highest(&board), board.len(), board.is_empty(), board.iter().count()), (None, 0, true, 0));
    assert_eq!(bits::board_highest(board.as_bytes()), (0, 0, 0));
    // Series 0 is not live for the places' zeros.
    for series in [0, 1, u32::MAX] {
        not_live(&mut board, series);
    }
}

/// 33 before 34 before 35, each also where the later ones hold.
#[test]
fn order_of_refusals() {
    let one = f64::to_bits(1.0);
    for volatility in NANS {
        refused(&mut Board::new(), 17, volatility, 33);
        refused(&mut board(&[(17, 0.25)]), 17, volatility, 33);
        refused(&mut full_board(), 256, volatility, 33);
        refused(&mut full_board(), 255, volatility, 33);
    }
    refused(&mut board(&[(17, 0.25)]), 17, one, 34);
    // Also with its own volatility, and with one that no other would be above.
    refused(&mut board(&[(17, 0.25)]), 17, 0.25f64.to_bits(), 34);
    refused(&mut board(&[(17, 0.25)]), 17, INFINITY.to_bits(), 34);
    for series in [0, 128, 255] {
        refused(&mut full_board(), series, one, 34);
    }
    for series in [256, u32::MAX] {
        refused(&mut full_board(), series, one, 35);
    }
}

#[test]
fn words_of_refusals() {
    let mut board = full_board();
    let words = [(0, f64::NAN), (0, 1.0), (256, 1.0)]
        .map(|(series, volatility)| board.arrive(series, volatility).unwrap_err().to_string());
    assert_eq!(
        words,
        [
            "refused with 33: the volatility is NaN",
            "refused with 34: the series is live already",
            "refused with 35: 256 quotes are live",
        ]
    );
}

/// Each quote's twelve bytes in order of arrival, and the count behind the last place.
#[test]
fn layout() {
    let quotes = [(0x0403_0201, 0.25), (u32::MAX, f64::NEG_INFINITY), (0, -0.0), (7, f64::from_bits(1))];
    for live_quotes in (0..=quotes.len()).map(|count| &quotes[..count]) {
        assert_eq!(board(live_quotes).as_bytes(), &live(live_quotes));
    }
    assert_eq!(board(&quotes).as_bytes()[..13], [1, 2, 3, 4, 0, 0, 0, 0, 0, 0, 0xD0, 0x3F, 0xFF]);
    let full = full_board();
    assert_eq!(full.as_bytes()[3060..], [255, 0, 0, 0, 0, 0, 0, 0, 0, 0xE0, 0x6F, 0x40, 0, 1, 0, 0]);
    assert_eq!(&Board::from_bytes(*full.as_bytes()), &full);
}

/// Equal, so that the earlier one is shown, with its own sign.
#[test]
fn zeros_of_either_sign() {
    assert_eq!(highest(&board(&[(17, -0.0), (18, 0.0)])), Some((17, 1 << 63)));
    assert_eq!(highest(&board(&[(17, 0.0), (18, -0.0)])), Some((17, 0)));
    assert_eq!(highest(&board(&[(16, -1.0), (17, -0.0), (18, 0.0)])), Some((17, 1 << 63)));
    // The least float above and the one below are not equal to them.
    let least = f64::from_bits(1);
    assert_eq!(highest(&board(&[(17, 0.0), (18, least)])), Some((18, 1)));
    assert_eq!(highest(&board(&[(17, -least), (18, -0.0)])), Some((18, 1 << 63)));
}

#[test]
fn infinities() {
    let mut quotes = board(&[(17, -INFINITY)]);
    assert_eq!(highest(&quotes), Some((17, (-INFINITY).to_bits())));
    for (series, volatility) in [(18, f64::MIN), (19, f64::MAX), (20, INFINITY)] {
        assert_eq!(quotes.arrive(series, volatility), Ok(()));
        assert_eq!(highest(&quotes), Some((series, volatility.to_bits())));
    }
    assert_eq!(quotes.arrive(21, INFINITY), Ok(()));
    assert_eq!(highest(&quotes), Some((20, INFINITY.to_bits())));
}

/// Of equal volatilities the earliest arrival is shown. One that has left and comes back is the latest.
#[test]
fn equal_volatilities() {
    let quarter = 0.25f64.to_bits();
    let mut quotes = board(&[(16, 0.125), (19, 0.25), (17, 0.25), (18, 0.25)]);
    for shown in [19, 17, 18] {
        assert_eq!(highest(&quotes), Some((shown, quarter)));
        assert!(quotes.leave(shown));
        assert_eq!(quotes.arrive(shown, 0.25), Ok(()));
    }
    assert_eq!(highest(&quotes), Some((19, quarter)));
    assert_eq!(series(&quotes), [16, 19, 17, 18]);
    assert_eq!(highest(&board(&[(1, 0.25), (2, 0.25f64.next_up()), (3, 0.25)])).map(|(series, _)| series), Some(2));
}

/// Those behind it move down a place, those before it stay, and the last one's place is zero.
#[test]
fn leaving() {
    let quotes = [(17, 0.25), (18, 0.5), (19, 0.125), (20, 0.5)];
    for place in 0..4 {
        let mut rest = quotes.to_vec();
        let (series, _) = rest.remove(place);
        let mut board = board(&quotes);
        assert!(board.leave(series));
        assert_eq!(board.as_bytes(), &live(&rest));
        not_live(&mut board, series);
        assert_eq!(board.arrive(series, 0.75), Ok(()));
        rest.push((series, 0.75));
        assert_eq!(board.as_bytes(), &live(&rest));
    }
    let mut board = board(&quotes);
    // The highest leaves, then the next one of the same volatility; then what is left.
    for (leaving, next) in [(18, Some(20)), (20, Some(17)), (17, Some(19)), (19, None)] {
        assert!(board.leave(leaving));
        assert_eq!(highest(&board).map(|(series, _)| series), next);
    }
    assert_eq!(board, Board::new());
}

/// 256 quotes, no more; a place that was left is filled again.
#[test]
fn full() {
    let mut board = full_board();
    assert_eq!((board.len(), highest(&board)), (256, Some((255, 255f64.to_bits()))));
    for (leaving, coming) in [(0, 256), (128, 257), (255, 258), (258, 0)] {
        refused(&mut board, coming, 0, 35);
        assert!(board.leave(leaving));
        assert_eq!((board.len(), board.as_bytes()[3060..3072].to_vec()), (255, vec![0; 12]));
        assert_eq!(board.arrive(coming, coming.into()), Ok(()));
        refused(&mut board, leaving, 0, 35);
    }
    let order: Vec<u32> = (1..128).chain(129..255).chain([256, 257, 0]).collect();
    assert_eq!(series(&board), order);
    // From the middle on, and round again.
    for series in order[100..].iter().chain(&order[..100]) {
        assert!(board.leave(*series));
    }
    assert_eq!(board, Board::new());
}

/// A count above 256 counts as 256.
#[test]
fn damaged_counts() {
    let quotes: Vec<_> = (0..256).map(|series| (series, f64::from(series).to_bits())).collect();
    for count in [257, 512, 0x0001_0000, 1 << 31, u32::MAX] {
        let mut board = Board::from_bytes(bytes(&quotes, count));
        assert_eq!(
            (board.len(), board.iter().count(), highest(&board).map(|(series, _)| series)),
            (256, 256, Some(255))
        );
        refused(&mut board, 256, NAN_BITS, 33);
        refused(&mut board, 255, 0, 34);
        refused(&mut board, 256, 0, 35);
        not_live(&mut board, 256);
        assert!(board.leave(255));
        assert_eq!(board.as_bytes(), &bytes(&quotes[..255], 255));
    }
    // All of it live, and zero: series 0 stands everywhere.
    let mut zeros = Board::from_bytes(bytes(&[], u32::MAX));
    assert_eq!(highest(&zeros), Some((0, 0)));
    assert!(zeros.leave(0));
    assert_eq!(zeros.as_bytes(), &bytes(&[], 255));
}

/// Where a series stands twice the earlier one leaves.
#[test]
fn series_that_stands_twice() {
    let [low, high] = [0.25f64, 0.5].map(f64::to_bits);
    let mut board = Board::from_bytes(bytes(&[(16, 0), (17, low), (18, 0), (17, high)], 4));
    assert_eq!(highest(&board), Some((17, high)));
    refused(&mut board, 17, 0, 34);
    assert!(board.leave(17));
    assert_eq!(board.as_bytes(), &bytes(&[(16, 0), (18, 0), (17, high)], 3));
    refused(&mut board, 17, 0, 34);
    assert!(board.leave(17));
    not_live(&mut board, 17);
}

/// A NaN on the board is above nothing and nothing is above it: it is shown where it came first, as the one NaN that comes
/// back, and nowhere else.
#[test]
fn nan_inside() {
    let infinite = INFINITY.to_bits();
    for nan in NANS {
        let first = Board::from_bytes(bytes(&[(17, nan), (18, infinite), (19, 0)], 3));
        assert_eq!(bits::board_highest(first.as_bytes()), (1, 17, NAN_BITS));
        assert_eq!(highest(&first), Some((17, NAN_BITS)));
        for quotes in [[(18, 0), (17, nan)], [(18, (-INFINITY).to_bits()), (17, nan)]] {
            assert_eq!(highest(&Board::from_bytes(bytes(&quotes, 2))), Some(quotes[0]));
        }
        let between = Board::from_bytes(bytes(&[(16, 0), (17, nan), (18, infinite), (19, nan)], 4));
        assert_eq!(highest(&between), Some((18, infinite)));
        assert_eq!(between.iter().nth(1).map(|quote| quote.volatility.to_bits()), Some(nan));
        // It leaves as any other.
        let mut board = first.clone();
        assert!(board.leave(17));
        assert_eq!(board.as_bytes(), &bytes(&[(18, infinite), (19, 0)], 2));
    }
}

/// What stands behind the last quote is not read, and changes only where a quote arrives, leaves or is counted.
#[test]
fn bytes_behind_the_quotes() {
    let mut damaged = [0xA5; BOARD_BYTES];
    damaged[..24].copy_from_slice(&live(&[(17, 0.25), (18, 0.5)])[..24]);
    damaged[3072..].copy_from_slice(&[2, 0, 0, 0]);
    let mut board = Board::from_bytes(damaged);
    assert_eq!((series(&board), highest(&board).map(|(series, _)| series)), (vec![17, 18], Some(18)));
    refused(&mut board, 18, 0, 34);
    refused(&mut board, 19, NAN_BITS, 33);
    not_live(&mut board, 0xA5A5_A5A5);
    assert!(board.leave(17));
    let mut expected = damaged;
    expected[..24].copy_from_slice(&live(&[(18, 0.5)])[..24]);
    expected[3072] = 1;
    assert_eq!(board.as_bytes(), &expected);
    assert_eq!((board.arrive(0xA5A5_A5A5, 0.75), board.arrive(20, 1.0)), (Ok(()), Ok(())));
    expected[..36].copy_from_slice(&live(&[(18, 0.5), (0xA5A5_A5A5, 0.75), (20, 1.0)])[..36]);
    expected[3072] = 3;
    assert_eq!(board.as_bytes(), &expected);
}

#[test]
fn iterator() {
    let board = board(&[(18, 0.5), (17, 0.25), (19, -0.0)]);
    let mut quotes = board.iter();
    assert_eq!((quotes.len(), quotes.size_hint()), (3, (3, Some(3))));
    assert_eq!(quotes.next(), Some(LiveQuote { series: 18, volatility: 0.5 }));
    assert_eq!((quotes.len(), quotes.clone().count()), (2, 2));
    assert_eq!(quotes.next().map(|quote| quote.series), Some(17));
    assert_eq!(quotes.next().map(|quote| quote.volatility.to_bits()), Some(1 << 63));
    assert_eq!([quotes.next(), quotes.next()], [None; 2]);
    let mut count = 0;
    for LiveQuote { series, volatility } in &board {
        count += 1;
        assert!(series >= 17 && volatility <= 0.5);
    }
    assert_eq!(count, board.len());
    let all = "[LiveQuote { series: 18, volatility: 0.5 }, LiveQuote { series: 17, volatility: 0.25 }, \
               LiveQuote { series: 19, volatility: -0.0 }]";
    assert_eq!(format!("{board:?}"), format!("Board {all}"));
}
