//! Packed prices beside document 02's: reading and writing, the bytes about what is read and written, and what was read
//! written again; and how often each case was met that is to show a fault.

use crate::{
    digits::ONE,
    edges::{neighbour, INFINITY, SIGN},
    packed::{
        price_in, price_of, product, significand, text_of, units_of, Fraction, Packed, Price, DIGITS, MOST, UNITS,
    },
    packed_inputs::{any_float, any_packed, fixed_floats, fixed_packed, GREATEST},
    tally::{report_counts, Tally},
};
use gintubalos::bits::packed_write;
use random_words::Words;
use rust_over_rules::elementary::NAN_BITS;
use std::{cmp::Ordering, collections::BTreeMap, hint::black_box, ops::RangeInclusive};

extern "C" {
    fn gintubalos_packed_read(packed: &Packed, number: &mut u8) -> u64;
}

// ---- the archive's calls

/// An odd number of bytes, so that what stands behind them is aligned to nothing.
const GUARD: [u8; 21] = [0xA5; 21];

/// What a call is lent, among other bytes.
#[repr(C)]
struct Lent<const BYTES: usize> {
    before: [u8; GUARD.len()],
    bytes: [u8; BYTES],
    after: [u8; GUARD.len()],
}

impl<const BYTES: usize> Lent<BYTES> {
    fn new(bytes: [u8; BYTES]) -> Self {
        Lent { before: GUARD, bytes, after: GUARD }
    }

    /// The bytes that were lent, and whether those about them are as they were.
    fn back(&self) -> ([u8; BYTES], bool) {
        let lent = black_box(self);
        (lent.bytes, lent.before == GUARD && lent.after == GUARD)
    }
}

/// The float's bits and the number, and whether all other bytes stay. The number is neither 36 before nor 0, as it is in the
/// crate's call, so that it shows where none is written.
fn our_read(packed: Packed) -> ((u64, u8), bool) {
    let (packed_lent, mut number_lent) = (Lent::new(packed), Lent::new([0x5A]));
    // SAFETY: the function reads the bytes and writes the number, and nothing else; it has no requires, keeps no pointer, and
    // is proved to end.
    let bits = unsafe { gintubalos_packed_read(black_box(&packed_lent.bytes), &mut number_lent.bytes[0]) };
    let ((after, others_stay), ([number], are_about_it)) = (packed_lent.back(), number_lent.back());
    ((bits, number), after == packed && others_stay && are_about_it)
}

/// The number and the bytes, and whether those about them stay.
fn our_write(x: u64, before: Packed) -> ((u8, Packed), bool) {
    let mut lent = Lent::new(before);
    let number = packed_write(x, black_box(&mut lent.bytes));
    let (after, others_stay) = lent.back();
    ((number, after), others_stay)
}

// ---- the comparison

/// What a difference says besides, where bytes are written that are not the call's.
fn and_others(others_stay: bool) -> &'static str {
    if others_stay {
        ""
    } else {
        ", and bytes that it is to leave are written"
    }
}

/// The machine rounds the quotient once, since a number of units is a float.
fn quotient(price: Price) -> u64 {
    let size = price.units as f64 / UNITS as f64;
    (if price.is_negative { -size } else { size }).to_bits()
}

/// Compares a reading, and writes again what was read.
fn read(tally: &mut Tally, packed: Packed, before: Packed) {
    let (found, others_stay) = our_read(packed);
    let price = price_in(packed);
    let expected = price.map_or((NAN_BITS, 36), |price| (price.float(), 0));
    let machine = price.map_or(NAN_BITS, quotient);
    tally.packed.count_reading(&Reading { packed, price });
    tally.count(found == expected && machine == expected.0 && others_stay, || {
        let [ours, theirs] = [found, expected].map(|(bits, number)| format!("{bits:016X} {number}"));
        let others = and_others(others_stay);
        format!(
            "packed_read({}): {ours}, document 02 has {theirs}, the machine {machine:016X}{others}",
            text_of(packed)
        )
    });
    if price.is_some() {
        let ((number, after), others_stay) = our_write(found.0, before);
        tally.count((number, after) == (0, packed) && others_stay, || {
            let (text, again, others) = (text_of(packed), text_of(after), and_others(others_stay));
            format!("packed_write({:016X}), read from {text}: {number} {again}{others}", found.0)
        });
    }
}

fn write(tally: &mut Tally, x: u64, before: Packed) {
    let (found, others_stay) = our_write(x, before);
    let (price, units) = (price_of(x), units_of(x));
    let expected = price.map_or((37, before), |price| (0, price.packed()));
    // Of a product that isn't rounded the machine's nearest whole number is beside ours.
    let by_machine = product(x).map(|product| product.round_ties_even()).is_none_or(|machine| match price {
        Some(price) => machine == price.units as f64,
        None => machine > MOST as f64,
    });
    let is_nearest = price.zip(units).is_none_or(|(price, units)| units.is_nearest(price.units.into()));
    tally.packed.count_writing(&Writing { x, price, units });
    tally.count(found == expected && by_machine && is_nearest && others_stay, || {
        let [ours, theirs] = [found, expected].map(|(number, packed)| format!("{number} {}", text_of(packed)));
        let others = and_others(others_stay);
        let machine = if by_machine && is_nearest { "" } else { ", which is not the nearest" };
        let before = text_of(before);
        format!("packed_write({x:016X}) over {before}: {ours}, document 02 has {theirs}{machine}{others}")
    });
}

/// The fixed inputs are compared in so many parts, each by a thread; the first part has the smallest ones.
const FIXED_PARTS: usize = 4;

fn each_fixed<I: Copy>(part: usize, all: &[I], mut each: impl FnMut(I, Packed)) {
    let mut words = Words::new(1, "packed before", part as u64);
    let of_part = all.chunks(all.len().div_ceil(FIXED_PARTS)).nth(part).unwrap_or_default();
    of_part.iter().for_each(|input| each(*input, words.any().to_be_bytes()));
}

pub fn fixed_readings<const PART: usize>(tally: &mut Tally) {
    each_fixed(PART, &fixed_packed(), |packed, before| read(tally, packed, before));
}

pub fn fixed_writings<const PART: usize>(tally: &mut Tally) {
    each_fixed(PART, &fixed_floats(), |x, before| write(tally, x, before));
}

pub fn random_reading(words: &mut Words, tally: &mut Tally) {
    let packed = any_packed(words);
    read(tally, packed, words.any().to_be_bytes());
}

pub fn random_writing(words: &mut Words, tally: &mut Tally) {
    let x = any_float(words);
    write(tally, x, words.any().to_be_bytes());
}

// ---- the cases of reading

struct Reading {
    packed: Packed,
    price: Option<Price>,
}

impl Reading {
    fn half_bytes(&self) -> [u8; DIGITS + 1] {
        let word = u64::from_be_bytes(self.packed);
        std::array::from_fn(|place| (word >> (4 * (DIGITS - place)) & 15) as u8)
    }

    /// How many digits are above 9.
    fn wrong_digits(&self) -> usize {
        self.half_bytes()[..DIGITS].iter().filter(|digit| **digit > 9).count()
    }

    fn has_wrong_sign(&self) -> bool {
        !matches!(self.half_bytes()[DIGITS], 0xC | 0xD)
    }

    fn is(&self, word: u64) -> bool {
        u64::from_be_bytes(self.packed) == word
    }

    fn is_price(&self, of: impl Fn(Price) -> bool) -> bool {
        self.price.is_some_and(of)
    }

    /// Whether the part of a last place that is rounded away is so.
    fn is_rounded(&self, of: impl Fn(Fraction) -> bool) -> bool {
        self.is_price(|price| price.units != 0 && of(significand(price.units).0))
    }
}

type Case<T> = (&'static str, fn(&T) -> bool);

const READING: [Case<Reading>; 18] = [
    ("the price is a float", |met| met.is_rounded(|of| of.rest() == 0)),
    ("rounded down", |met| met.is_rounded(|of| of.rest() > 0 && of.beside_half() == Ordering::Less)),
    ("rounded up", |met| met.is_rounded(|of| of.beside_half() == Ordering::Greater)),
    // No price is a middle of two floats.
    ("rounded down from the nearest place below a middle, 4992 of 10000", |met| met.is_rounded(|of| of.rest() == 4992)),
    ("rounded up from the nearest place above a middle, 5008 of 10000", |met| met.is_rounded(|of| of.rest() == 5008)),
    ("the units times 0.0001 are another float", |met| {
        met.is_price(|price| (price.units as f64 * 0.0001).to_bits() != price.float() & !SIGN)
    }),
    ("a price below 0", |met| met.is_price(|price| price.is_negative)),
    ("zero with C", |met| met.is(0xC)),
    ("one unit", |met| met.is(0x1C)),
    ("one unit below 0", |met| met.is(0x1D)),
    ("the greatest price", |met| met.is(0x9999_9999_9999_999C)),
    ("the least price", |met| met.is(0x9999_9999_9999_999D)),
    ("zero with D: 36", |met| met.is(0xD)),
    ("a digit above 9, and nothing else: 36", |met| met.wrong_digits() == 1 && !met.has_wrong_sign()),
    ("another sign, and nothing else: 36", |met| met.wrong_digits() == 0 && met.has_wrong_sign()),
    ("a digit above 9 and another sign: 36", |met| met.wrong_digits() == 1 && met.has_wrong_sign()),
    ("zeros, a digit above 9 and D: 36", |met| {
        let zeros = met.half_bytes().iter().filter(|half_byte| **half_byte == 0).count();
        zeros == DIGITS - 1 && met.wrong_digits() == 1 && met.half_bytes()[DIGITS] == 0xD
    }),
    ("all digits above 9: 36", |met| met.wrong_digits() == DIGITS),
];

// ---- the cases of writing

struct Writing {
    x: u64,
    price: Option<Price>,
    /// The exact number of units; none of a float that isn't finite.
    units: Option<Fraction>,
}

fn is_tie(x: u64) -> bool {
    units_of(x).is_some_and(|units| units.beside_half() == Ordering::Equal)
}

impl Writing {
    fn float(&self) -> f64 {
        f64::from_bits(self.x)
    }

    fn is(&self, x: u64) -> bool {
        self.x == x
    }

    /// Whether it is written, and as what.
    fn is_price(&self, of: impl Fn(Price) -> bool) -> bool {
        self.price.is_some_and(of)
    }

    /// Whether it is written, and how the part of a unit that is rounded away lies by a half.
    fn is_rounded(&self, of: impl Fn(Fraction) -> bool) -> bool {
        self.price.is_some() && self.units.is_some_and(of)
    }

    /// A tie that is rounded up or down.
    fn is_tie(&self, is_up: bool) -> bool {
        self.is_rounded(|units| units.beside_half() == Ordering::Equal && (units.whole() % 2 == 1) == is_up)
    }

    /// Whether the float some steps farther from 0 is a tie.
    fn is_beside_tie(&self, steps: i64) -> bool {
        self.price.is_some() && is_tie(neighbour(self.x, steps))
    }

    /// Whether another number of units is the nearest to the product as a float has it.
    fn is_rounded_twice(&self) -> bool {
        let twice = (self.float().abs() * UNITS as f64).round_ties_even();
        self.is_price(|price| twice != price.units as f64)
    }

    /// Whether this sign's float is written as so many units and the one next to it, in so many steps, is not.
    fn is_last(&self, sign: u64, units: u64, steps: i64) -> bool {
        let is_so = |price: Price| price.units == units;
        self.x & SIGN == sign && self.is_price(is_so) && !price_of(neighbour(self.x, steps)).is_some_and(is_so)
    }

    /// Of its first digit.
    fn exponent(&self) -> i32 {
        let size = self.x & !SIGN;
        match size / ONE {
            0 => size.checked_ilog2().unwrap_or(0) as i32 - 1074,
            field => field as i32 - 1023,
        }
    }

    fn is_power_of_two(&self) -> bool {
        let size = self.x & !SIGN;
        self.units.is_some() && (if size < ONE { size.is_power_of_two() } else { size % ONE == 0 })
    }

    /// The number of digits before rounding, and what it is after it; 16 where that is too many.
    fn digits_around(&self) -> Option<(u32, u32)> {
        let digits = |units: u128| units.checked_ilog10().map_or(0, |digits| digits + 1);
        self.units.map(|units| (digits(units.whole()), digits(units.nearest())))
    }

    fn is_nan(&self, of: impl Fn(u64) -> bool) -> bool {
        self.float().is_nan() && of(self.x)
    }
}

const QUIET: u64 = 1 << 51;
const NEXT: u64 = GREATEST + 1;
const MAX: u64 = f64::MAX.to_bits();

const WRITING: [Case<Writing>; 39] = [
    ("a whole number of units", |met| met.is_rounded(|of| of.rest() == 0 && of.whole() != 0)),
    ("rounded down", |met| met.is_rounded(|of| of.rest() > 0 && of.beside_half() == Ordering::Less)),
    ("rounded up", |met| met.is_rounded(|of| of.beside_half() == Ordering::Greater)),
    ("a tie is rounded down", |met| met.is_tie(false)),
    ("a tie is rounded up", |met| met.is_tie(true)),
    ("a tie below 0", |met| (met.is_tie(false) || met.is_tie(true)) && met.float() < 0.0),
    ("one float nearer to 0 than a tie", |met| met.is_beside_tie(1)),
    ("one float farther from 0 than a tie", |met| met.is_beside_tie(-1)),
    ("the product with 10000 is a float", |met| product(met.x).is_some()),
    ("another number of units is nearest to the rounded product", Writing::is_rounded_twice),
    ("0", |met| met.is(0)),
    ("-0", |met| met.is(SIGN)),
    ("above 0, written as zero", |met| met.float() > 0.0 && met.is_price(|price| price.units == 0)),
    ("below 0, written as zero with C", |met| met.float() < 0.0 && met.is_price(|price| price.units == 0)),
    ("-0.00001", |met| met.float() == -0.00001),
    ("the greatest float that is written as zero", |met| met.is_last(0, 0, 1)),
    ("the least float that is written as zero", |met| met.is_last(SIGN, 0, 1)),
    ("the least float that is written as one unit", |met| met.is_last(0, 1, -1)),
    ("the greatest float that is written as one unit below 0", |met| met.is_last(SIGN, 1, -1)),
    ("a subnormal above 0", |met| met.float().is_subnormal() && met.x & SIGN == 0),
    ("a subnormal below 0", |met| met.float().is_subnormal() && met.x & SIGN != 0),
    ("the least float above 0", |met| met.is(1)),
    ("the greatest float below 0", |met| met.is(SIGN | 1)),
    ("the greatest float that is written", |met| met.is(GREATEST) && met.price.is_some()),
    ("the least float that is written", |met| met.is(SIGN | GREATEST) && met.price.is_some()),
    ("the float after the greatest one: 37", |met| met.is(NEXT) && met.price.is_none()),
    ("the float before the least one: 37", |met| met.is(SIGN | NEXT) && met.price.is_none()),
    ("10^15 only after rounding: 37", |met| met.price.is_none() && met.digits_around() == Some((15, 16))),
    ("10^11: 37", |met| met.float() == 1e11),
    ("-10^11: 37", |met| met.float() == -1e11),
    ("2^63: 37", |met| met.float() == 9_223_372_036_854_775_808.0),
    ("2^64: 37", |met| met.float() == 18_446_744_073_709_551_616.0),
    ("the greatest float: 37", |met| met.is(MAX)),
    ("the least float: 37", |met| met.is(SIGN | MAX)),
    ("infinity: 37", |met| met.is(INFINITY)),
    ("-infinity: 37", |met| met.is(SIGN | INFINITY)),
    ("a quiet NaN: 37", |met| met.is_nan(|x| x & QUIET != 0)),
    ("a signalling NaN: 37", |met| met.is_nan(|x| x & QUIET == 0)),
    ("a NaN with a sign: 37", |met| met.is_nan(|x| x & SIGN != 0)),
];

// ---- the counts

/// What is to be met for each of some numbers.
#[derive(Clone, Copy, PartialEq, Eq, PartialOrd, Ord)]
enum At {
    Length,
    LengthBelowZero,
    PowerOfTen,
    BelowPowerOfTen,
    AbovePowerOfTen,
    Written,
    WrittenBelowZero,
    DigitMore,
    TieDown,
    TieUp,
    PowerOfTwo,
    PowerOfTwoBelowZero,
    Border,
    BorderBelowZero,
}

type Each = (At, &'static str, RangeInclusive<i32>);

const EACH_READ: [Each; 5] = [
    (At::Length, "a price, its digits", 1..=15),
    (At::LengthBelowZero, "a price below 0, its digits", 1..=15),
    (At::BelowPowerOfTen, "a unit below a power of ten, its zeros", 0..=15),
    (At::PowerOfTen, "a power of ten, its zeros", 0..=14),
    (At::AbovePowerOfTen, "a unit above a power of ten, its zeros", 0..=14),
];

const EACH_WRITTEN: [Each; 9] = [
    (At::Written, "written digits", 1..=15),
    (At::WrittenBelowZero, "written digits below 0", 1..=15),
    (At::DigitMore, "rounding makes one digit more, and then there are", 1..=16),
    // 1/32 is the only tie below 1/16, and 3/32 the only one below 1/8.
    (At::TieDown, "a tie is rounded down, its exponent", -3..=36),
    (At::TieUp, "a tie is rounded up, its exponent", -3..=36),
    (At::PowerOfTwo, "a power of two, its exponent", -1074..=1023),
    (At::PowerOfTwoBelowZero, "a power of two below 0, its exponent", -1074..=1023),
    (At::Border, "floats beside the greatest that is written, in steps", -16..=16),
    (At::BorderBelowZero, "floats beside the least that is written, in steps", -16..=16),
];

/// What calls met.
pub struct Counts {
    /// In the order of READING and of WRITING.
    reading: [u64; READING.len()],
    writing: [u64; WRITING.len()],
    /// Each half-byte at each place, the last one the sign's: of accepted prices, and of bytes that it alone makes none.
    half_bytes: [[u64; 16]; DIGITS + 1],
    /// The signs of zero.
    signs_of_zero: [u64; 16],
    each: BTreeMap<(At, i32), u64>,
}

impl Default for Counts {
    fn default() -> Counts {
        Counts {
            reading: [0; READING.len()],
            writing: [0; WRITING.len()],
            half_bytes: Default::default(),
            signs_of_zero: [0; 16],
            each: BTreeMap::new(),
        }
    }
}

fn add<'a>(counts: impl IntoIterator<Item = &'a mut u64>, more: impl IntoIterator<Item = u64>) {
    counts.into_iter().zip(more).for_each(|(count, more)| *count += more);
}

impl Counts {
    pub fn add(&mut self, other: Counts) {
        add(&mut self.reading, other.reading);
        add(&mut self.writing, other.writing);
        add(self.half_bytes.as_flattened_mut(), other.half_bytes.as_flattened().iter().copied());
        add(&mut self.signs_of_zero, other.signs_of_zero);
        for (at, count) in other.each {
            *self.each.entry(at).or_default() += count;
        }
    }

    fn count(&mut self, at: At, number: i32) {
        *self.each.entry((at, number)).or_default() += 1;
    }

    fn count_reading(&mut self, met: &Reading) {
        add(&mut self.reading, READING.iter().map(|(_, is_met)| is_met(met).into()));
        let (half_bytes, wrong_digits) = (met.half_bytes(), met.wrong_digits());
        let is_zero = half_bytes[..DIGITS] == [0; DIGITS];
        if is_zero {
            self.signs_of_zero[usize::from(half_bytes[DIGITS])] += 1;
        }
        for (place, half_byte) in half_bytes.into_iter().enumerate() {
            let is_alone = match place {
                DIGITS => wrong_digits == 0 && !is_zero,
                _ => wrong_digits == usize::from(half_byte > 9) && !met.has_wrong_sign() && !met.is(0xD),
            };
            self.half_bytes[place][usize::from(half_byte)] += u64::from(is_alone);
        }
        if let Some(price) = met.price {
            self.count_price(price);
        }
    }

    fn count_price(&mut self, price: Price) {
        let digits = |units: u64| units.checked_ilog10().map_or(0, |digits| digits as i32 + 1);
        let of = [At::Length, At::LengthBelowZero][usize::from(price.is_negative)];
        self.count(of, digits(price.units));
        for (at, units) in [
            (At::BelowPowerOfTen, price.units + 1),
            (At::PowerOfTen, price.units),
            (At::AbovePowerOfTen, price.units.saturating_sub(1)),
        ] {
            if units != 0 && 10_u64.pow(units.ilog10()) == units {
                self.count(at, digits(units) - 1);
            }
        }
    }

    fn count_writing(&mut self, met: &Writing) {
        add(&mut self.writing, WRITING.iter().map(|(_, is_met)| is_met(met).into()));
        let is_negative = usize::from(met.x & SIGN != 0);
        if let Some((before, after)) = met.digits_around() {
            if met.price.is_some() {
                self.count([At::Written, At::WrittenBelowZero][is_negative], after as i32);
            }
            if after > before {
                self.count(At::DigitMore, after as i32);
            }
        }
        for (at, is_up) in [(At::TieDown, false), (At::TieUp, true)] {
            if met.is_tie(is_up) {
                self.count(at, met.exponent());
            }
        }
        if met.is_power_of_two() {
            self.count([At::PowerOfTwo, At::PowerOfTwoBelowZero][is_negative], met.exponent());
        }
        let steps = (met.x & !SIGN) as i64 - GREATEST as i64;
        if (-16..=16).contains(&steps) {
            self.count([At::Border, At::BorderBelowZero][is_negative], steps as i32);
        }
    }

    /// Prints how often each number of some cases was met at least, and gives those at which one was not.
    fn report(&self, each: &[Each]) -> Vec<String> {
        let mut missing = Vec::new();
        for (at, what, numbers) in each {
            let count = |number| self.each.get(&(*at, number)).copied().unwrap_or(0);
            let least = numbers.clone().map(count).min().unwrap_or(0);
            println!("  {what} {} to {}: each {least} times at least", numbers.start(), numbers.end());
            missing
                .extend(numbers.clone().filter(|number| count(*number) == 0).map(|number| format!("{what} {number}")));
        }
        missing
    }

    /// The same of each half-byte at each place.
    fn report_half_bytes(&self) -> Vec<String> {
        let mut missing = Vec::new();
        let signs = [&self.half_bytes[DIGITS], &self.signs_of_zero];
        let digits: Vec<&[u64; 16]> = self.half_bytes[..DIGITS].iter().collect();
        for (what, places, half_bytes) in [
            ("a digit 0 to 9 at each place", &digits[..], 0..10),
            ("a half-byte A to F, and nothing else that refuses, at each place", &digits, 10..16),
            ("a sign 0 to F of other digits than zeros", &signs[..1], 0..16),
            ("a sign 0 to F of zero", &signs[1..], 0..16),
        ] {
            let counts = places.iter().map(|counts| &counts[half_bytes.clone()]);
            println!("  {what}: each {} times at least", counts.clone().flatten().min().unwrap_or(&0));
            for (place, counts) in counts.enumerate() {
                let zeros = counts.iter().zip(half_bytes.clone()).filter(|(count, _)| **count == 0);
                missing.extend(zeros.map(|(_, half_byte)| format!("{what}: {half_byte:X} at place {place}")));
            }
        }
        missing
    }
}

fn names<'a, T, const N: usize>(
    cases: &'a [Case<T>; N],
    counts: [u64; N],
) -> impl Iterator<Item = (&'static str, u64)> + 'a {
    cases.iter().zip(counts).map(|((name, _), count)| (*name, count))
}

/// Prints how often each case of reading was met, and gives those that were not; and so below of writing.
pub fn report_readings(tally: &Tally) -> Vec<String> {
    let counts = &tally.packed;
    let cases = report_counts("packed prices that are read:", names(&READING, counts.reading));
    [cases, counts.report_half_bytes(), counts.report(&EACH_READ)].concat()
}

pub fn report_writings(tally: &Tally) -> Vec<String> {
    let counts = &tally.packed;
    let cases = report_counts("floats that are written as packed prices:", names(&WRITING, counts.writing));
    [cases, counts.report(&EACH_WRITTEN)].concat()
}

#[cfg(test)]
mod tests {
    use super::*;

    /// The fixed inputs alone meet every case.
    #[test]
    fn fixed_inputs_meet_every_case() {
        let mut tally = Tally::default();
        for packed in fixed_packed() {
            read(&mut tally, packed, [0x77; 8]);
        }
        for x in fixed_floats() {
            write(&mut tally, x, [0x77; 8]);
        }
        for report in [report_readings, report_writings] {
            assert_eq!(report(&tally), [""; 0]);
        }
    }
}
