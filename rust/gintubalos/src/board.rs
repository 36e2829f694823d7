//! The live board: quotes that come and go, of which the one of the highest volatility is shown.

use crate::{bits, environment::in_default, Refusal};
use std::{fmt, iter::FusedIterator, slice};

/// The bytes of a board.
pub const BOARD_BYTES: usize = 3076;

/// A quote's bytes: its series, then its volatility.
const QUOTE_BYTES: usize = 12;

/// Where the count of the live quotes stands, behind the last place.
const COUNT_AT: usize = 3072;

/// A quote on a [`Board`].
#[derive(Clone, Copy, Debug, PartialEq)]
pub struct LiveQuote {
    /// The series' number.
    pub series: u32,
    /// The volatility.
    pub volatility: f64,
}

/// Up to 256 live quotes, in order of arrival. The one of the highest volatility is shown; of equal ones, and zeros of
/// either sign are equal, the one that arrived first.
///
/// ```
/// use gintubalos::{Board, LiveQuote};
///
/// let mut board = Board::new();
/// board.arrive(17, 0.25)?;
/// board.arrive(18, 0.5)?;
/// board.arrive(19, 0.5)?;
/// assert_eq!(board.highest(), Some(LiveQuote { series: 18, volatility: 0.5 }));
///
/// assert!(board.leave(18));
/// assert_eq!(board.highest(), Some(LiveQuote { series: 19, volatility: 0.5 }));
/// assert!(!board.leave(18));
///
/// let again = board.arrive(17, 0.75);
/// assert_eq!(again.unwrap_err().to_string(), "refused with 34: the series is live already");
/// # Ok::<(), gintubalos::Refusal>(())
/// ```
///
/// Its bytes are the board: quote i, in order of arrival, is at byte 12 × i, first its series (a u32), then its volatility
/// (an f64); the count of the live quotes (a u32) is at byte 3072; all little-endian, and the same in every version. Where
/// a board began empty, the places behind its last quote are zero. Two boards are equal where their bytes are.
#[derive(Clone, PartialEq, Eq, Hash)]
pub struct Board([u8; BOARD_BYTES]);

impl Board {
    /// The most quotes that are live at a time.
    pub const MOST_QUOTES: usize = 256;

    /// The empty board.
    ///
    /// ```
    /// assert!(gintubalos::Board::new().is_empty());
    /// ```
    pub const fn new() -> Board {
        Board([0; BOARD_BYTES])
    }

    /// The board of some bytes, such as [`as_bytes`](Board::as_bytes) gave. Any are accepted. Where they never were a
    /// board's: a count above 256 counts as 256; where a series stands twice, it is the earlier one that leaves; a NaN is
    /// above no volatility and none is above it, so that it is highest only where it stands first.
    ///
    /// ```
    /// use gintubalos::Board;
    ///
    /// let mut board = Board::new();
    /// board.arrive(17, 0.25)?;
    /// assert_eq!(Board::from_bytes(*board.as_bytes()), board);
    /// # Ok::<(), gintubalos::Refusal>(())
    /// ```
    pub const fn from_bytes(bytes: [u8; BOARD_BYTES]) -> Board {
        Board(bytes)
    }

    /// The board's bytes, to keep it.
    pub const fn as_bytes(&self) -> &[u8; BOARD_BYTES] {
        &self.0
    }

    /// A quote arrives, behind all others. Refused with 33 where its volatility is NaN, with 34 where a quote of the series
    /// is live, with 35 where 256 are; the board then stays as it is. Infinities are volatilities like any other.
    ///
    /// ```
    /// let mut board = gintubalos::Board::new();
    /// assert_eq!(board.arrive(17, f64::NAN).unwrap_err().number, 33);
    /// assert_eq!(board.arrive(17, f64::INFINITY), Ok(()));
    /// assert_eq!(board.arrive(17, 0.25).unwrap_err().number, 34);
    /// ```
    pub fn arrive(&mut self, series: u32, volatility: f64) -> Result<(), Refusal> {
        match in_default(|| bits::board_arrive(&mut self.0, series, volatility.to_bits())) {
            0 => Ok(()),
            number => Err(Refusal { number, steps: 0 }),
        }
    }

    /// The quote of a series leaves, and says that it was live; those behind it move down a place. Where none of the series
    /// is live the board stays as it is.
    ///
    /// ```
    /// let mut board = gintubalos::Board::new();
    /// board.arrive(17, 0.25)?;
    /// assert_eq!([board.leave(17), board.leave(17)], [true, false]);
    /// # Ok::<(), gintubalos::Refusal>(())
    /// ```
    pub fn leave(&mut self, series: u32) -> bool {
        in_default(|| bits::board_leave(&mut self.0, series)) == 1
    }

    /// The quote of the highest volatility, with its own bits; of equal ones the earliest; none on an empty board.
    ///
    /// ```
    /// use gintubalos::{Board, LiveQuote};
    ///
    /// let mut board = Board::new();
    /// assert_eq!(board.highest(), None);
    /// board.arrive(17, -0.0)?;
    /// board.arrive(18, 0.0)?;
    /// assert_eq!(board.highest(), Some(LiveQuote { series: 17, volatility: -0.0 }));
    /// # Ok::<(), gintubalos::Refusal>(())
    /// ```
    pub fn highest(&self) -> Option<LiveQuote> {
        let (found, series, volatility) = in_default(|| bits::board_highest(&self.0));
        (found == 1).then_some(LiveQuote { series, volatility: f64::from_bits(volatility) })
    }

    /// How many quotes are live.
    pub fn len(&self) -> usize {
        let count = self.0.last_chunk().copied().map_or(0, u32::from_le_bytes);
        Board::MOST_QUOTES.min(count as usize)
    }

    /// Whether no quote is live.
    pub fn is_empty(&self) -> bool {
        self.len() == 0
    }

    /// The live quotes in order of arrival, each as it stands in the board's bytes.
    ///
    /// ```
    /// let mut board = gintubalos::Board::new();
    /// board.arrive(18, 0.5)?;
    /// board.arrive(17, 0.25)?;
    /// let series: Vec<u32> = board.iter().map(|quote| quote.series).collect();
    /// assert_eq!(series, [18, 17]);
    /// # Ok::<(), gintubalos::Refusal>(())
    /// ```
    pub fn iter(&self) -> LiveQuotes<'_> {
        let (places, _) = self.0[..COUNT_AT].as_chunks();
        LiveQuotes(places[..self.len()].iter())
    }
}

impl Default for Board {
    fn default() -> Board {
        Board::new()
    }
}

/// Its live quotes.
impl fmt::Debug for Board {
    fn fmt(&self, f: &mut fmt::Formatter) -> fmt::Result {
        f.write_str("Board ")?;
        f.debug_list().entries(self).finish()
    }
}

impl<'a> IntoIterator for &'a Board {
    type Item = LiveQuote;
    type IntoIter = LiveQuotes<'a>;

    fn into_iter(self) -> LiveQuotes<'a> {
        self.iter()
    }
}

/// The iterator over a board's live quotes that [`Board::iter`] yields.
#[derive(Clone, Debug)]
pub struct LiveQuotes<'a>(slice::Iter<'a, [u8; QUOTE_BYTES]>);

fn quote_of(&[s0, s1, s2, s3, ref volatility @ ..]: &[u8; QUOTE_BYTES]) -> LiveQuote {
    LiveQuote { series: u32::from_le_bytes([s0, s1, s2, s3]), volatility: f64::from_le_bytes(*volatility) }
}

impl Iterator for LiveQuotes<'_> {
    type Item = LiveQuote;

    fn next(&mut self) -> Option<LiveQuote> {
        self.0.next().map(quote_of)
    }

    fn size_hint(&self) -> (usize, Option<usize>) {
        self.0.size_hint()
    }
}

impl ExactSizeIterator for LiveQuotes<'_> {}
impl FusedIterator for LiveQuotes<'_> {}
