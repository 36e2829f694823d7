//! The book of 64-byte records, and relist's line.

use crate::{bits, environment::in_default, Branch, Ending, OptionType, Refusal, RuleSet, Sentinel};
use std::iter::FusedIterator;

/// The bytes of a record in a book.
pub const RECORD_BYTES: usize = 64;

/// A view of a record's own part of a book. It reads what stands there; whether it agrees with the rules is for
/// [`recheck`] to say.
///
/// ```
/// use gintubalos::{file, read, Branch, OptionType, RuleSet};
///
/// let mut book = [0; 64];
/// file(10.0, 100.0, 95.0, 1.0, OptionType::Call, 2, RuleSet::Original, &mut book, 0)?;
/// let record = read(&book, 1, 0)?;
/// assert_eq!((record.price(), record.forward(), record.strike(), record.expiry()), (10.0, 100.0, 95.0, 1.0));
/// assert_eq!((record.kind(), record.limit()), (Some(OptionType::Call), 2));
/// assert_eq!((record.branch(), record.steps()), (Some(Branch::LowerMiddle), 2));
/// # Ok::<(), gintubalos::Refusal>(())
/// ```
#[derive(Clone, Copy, Debug, PartialEq, Eq)]
pub struct Record<'a>(&'a [u8; RECORD_BYTES]);

impl<'a> From<&'a [u8; RECORD_BYTES]> for Record<'a> {
    fn from(bytes: &'a [u8; RECORD_BYTES]) -> Record<'a> {
        Record(bytes)
    }
}

/// Declares an accessor for each float, by its place.
macro_rules! floats {
    ($($(#[$doc:meta])* $name:ident = $at:literal;)*) => { $(
        $(#[$doc])*
        pub fn $name(&self) -> f64 {
            f64::from_le_bytes(self.at($at))
        }
    )* };
}

impl<'a> Record<'a> {
    fn at<const N: usize>(&self, at: usize) -> [u8; N] {
        std::array::from_fn(|i| self.0[at + i])
    }

    floats! {
        /// The price, at byte 0.
        price = 0;
        /// The forward, at byte 8.
        forward = 8;
        /// The strike, at byte 16.
        strike = 16;
        /// The expiry, at byte 24.
        expiry = 24;
        /// The volatility, at byte 32.
        volatility = 32;
    }

    /// The limit, at byte 40.
    pub fn limit(&self) -> i32 {
        i32::from_le_bytes(self.at(40))
    }

    /// The completed steps, at byte 44.
    pub fn steps(&self) -> u32 {
        u32::from_le_bytes(self.at(44))
    }

    /// The kind, at byte 48; none where the byte is outside the layout.
    pub fn kind(&self) -> Option<OptionType> {
        OptionType::from_byte(self.0[48])
    }

    /// The branch, at byte 49; none where the byte is outside the layout.
    pub fn branch(&self) -> Option<Branch> {
        Branch::from_byte(self.0[49])
    }

    /// The ending, at byte 50; none where the byte is outside the layout.
    pub fn ending(&self) -> Option<Ending> {
        Ending::from_byte(self.0[50])
    }

    /// What the filed volatility stands for where none is meant.
    pub fn sentinel(&self) -> Option<Sentinel> {
        self.branch().and_then(|branch| Sentinel::of(branch, self.volatility()))
    }

    /// The record's bytes.
    pub fn bytes(&self) -> &'a [u8; RECORD_BYTES] {
        self.0
    }
}

/// Solves and writes the record to slot `used`; answers `used` + 1. Refused with 1 to 4, with 23 where `used` is above the
/// book's whole slots, with 22 where none is free, then 6 or 7; the book then stays as it is. A part slot at the book's
/// end always stays. A record does not name its rule set: whoever files has to know it at a [`recheck`].
///
/// ```
/// use gintubalos::{file, OptionType::Put, RuleSet};
///
/// let mut book = [0; 100];
/// assert_eq!(file(10.0, 100.0, 95.0, 1.0, Put, 2, RuleSet::Original, &mut book, 0), Ok(1));
/// assert_eq!(file(10.0, 100.0, 95.0, 1.0, Put, 2, RuleSet::Original, &mut book, 1).unwrap_err().number, 22);
/// ```
#[allow(clippy::too_many_arguments)]
pub fn file(
    market_price: f64,
    forward_price: f64,
    strike_price: f64,
    time_to_maturity: f64,
    option_type: OptionType,
    max_iteration: i32,
    rules: RuleSet,
    book: &mut [u8],
    used: u64,
) -> Result<u64, Refusal> {
    let [price, forward, strike, expiry] =
        [market_price, forward_price, strike_price, time_to_maturity].map(f64::to_bits);
    let (kind, rules) = (option_type.byte(), rules.number());
    let (count, outcome) =
        in_default(|| bits::file(price, forward, strike, expiry, kind, max_iteration, rules, book, used));
    refusal(outcome).map_or(Ok(count), Err)
}

/// Solves record `k` again under the rules that it was filed under, and says whether its volatility, steps, branch and
/// ending are the same to the last bit. Under other rules they can differ where the price is between the two caps, and only
/// there. Refused with 23, 24, 1 to 4, then 6 or 7.
///
/// ```
/// use gintubalos::{file, recheck, OptionType::Put, RuleSet};
///
/// let mut book = [0; 64];
/// file(10.0, 100.0, 95.0, 1.0, Put, 2, RuleSet::Original, &mut book, 0)?;
/// assert_eq!(recheck(&book, 1, 0, RuleSet::Original), Ok(true));
/// book[32] ^= 1;
/// assert_eq!(recheck(&book, 1, 0, RuleSet::Original), Ok(false));
/// # Ok::<(), gintubalos::Refusal>(())
/// ```
pub fn recheck(book: &[u8], used: u64, k: u64, rules: RuleSet) -> Result<bool, Refusal> {
    let (agrees, outcome) = in_default(|| bits::recheck(book, used, k, rules.number()));
    refusal(outcome).map_or(Ok(agrees == 1), Err)
}

fn refusal(outcome: u64) -> Option<Refusal> {
    let bits::Outcome { number, steps, .. } = outcome.into();
    (number != 0).then_some(Refusal { number, steps })
}

/// Record `k`'s own part of the book. Refused with 23.
///
/// ```
/// let book = [0; 128];
/// assert_eq!(gintubalos::read(&book, 2, 1).map(|record| record.price()), Ok(0.0));
/// assert_eq!(gintubalos::read(&book, 1, 1).unwrap_err().number, 23);
/// ```
pub fn read(book: &[u8], used: u64, k: u64) -> Result<Record<'_>, Refusal> {
    match bits::read(book, used, k) {
        (at, 0) => Ok(Record(book[at as usize..].first_chunk().expect("proved: record k's whole part"))),
        (_, number) => Err(Refusal { number, steps: 0 }),
    }
}

/// The records of a book, from 0 on. Refused with 23 where `used` is above the book's whole slots.
///
/// ```
/// use gintubalos::{file, records, OptionType::Call, RuleSet};
///
/// let mut book = [0; 128];
/// file(9.0, 100.0, 95.0, 1.0, Call, 2, RuleSet::Original, &mut book, 0)?;
/// file(10.0, 100.0, 95.0, 1.0, Call, 2, RuleSet::Original, &mut book, 1)?;
/// let prices: Vec<f64> = records(&book, 2)?.map(|record| record.price()).collect();
/// assert_eq!(prices, [9.0, 10.0]);
/// assert_eq!(records(&book, 3).unwrap_err().number, 23);
/// # Ok::<(), gintubalos::Refusal>(())
/// ```
pub fn records(book: &[u8], used: u64) -> Result<Records<'_>, Refusal> {
    if used > 0 {
        read(book, used, 0)?;
    }
    Ok(Records { book, used, next: 0 })
}

/// The iterator over a book's records that [`records`] yields.
#[derive(Clone, Debug)]
pub struct Records<'a> {
    book: &'a [u8],
    used: u64,
    next: u64,
}

impl<'a> Iterator for Records<'a> {
    type Item = Record<'a>;

    fn next(&mut self) -> Option<Record<'a>> {
        let record = read(self.book, self.used, self.next).ok()?;
        self.next += 1;
        Some(record)
    }

    fn size_hint(&self) -> (usize, Option<usize>) {
        // The used count is at most the book's slots, so it fits.
        let left = (self.used - self.next) as usize;
        (left, Some(left))
    }
}

impl ExactSizeIterator for Records<'_> {}
impl FusedIterator for Records<'_> {}

/// The line that `relist` writes for the record, its line feed included: record number, volatility bits, steps, branch and
/// ending, or "REF" and the number. Its rules are [`RuleSet::Original`]'s, whatever the record was filed under. The bytes
/// are a record's, or a last part under 64 bytes, which gives 23.
///
/// ```
/// let mut record = [0; 64];
/// for (at, x) in [(0, 150.0f64), (8, 100.0), (16, 200.0), (24, 4.0)] {
///     record[at..at + 8].copy_from_slice(&x.to_le_bytes());
/// }
/// (record[40], record[48]) = (2, 1);
/// assert_eq!(gintubalos::line(0, &record), "0 7FDFFFFFFFFFFFFF 0 0 0\n");
/// assert_eq!(gintubalos::line(1, &record[..63]), "1 REF 23\n");
/// ```
pub fn line(index: u64, bytes: &[u8]) -> String {
    let mut out = [0; 128];
    let length = in_default(|| bits::line(index, bytes, &mut out));
    out[..length].iter().map(|byte| char::from(*byte)).collect()
}
