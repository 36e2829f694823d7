//! The packed prices' rows: prices of every length, floats below 10^11, and the same in plain Rust, which the answers are held
//! against.

use gintubalos::bits::{packed_read, packed_write};
use random_words::Words;

const DIGITS: u64 = 15;
const MOST: u64 = 999_999_999_999_999;
const UNITS: u64 = 10_000;
const SIGN: u64 = 1 << 63;
const ONE: u64 = 1 << 52;

/// Eight bytes as a word, the first one uppermost.
type Word = u64;

// ---- plain Rust

/// The price's bits, 0 where it is refused.
fn plain_read(word: Word) -> u64 {
    let mut units = 0;
    for place in (1..=DIGITS).rev() {
        let digit = word >> (4 * place) & 15;
        if digit > 9 {
            return 0;
        }
        units = 10 * units + digit;
    }
    let size = units as f64 / UNITS as f64;
    match word & 15 {
        0xC => size.to_bits(),
        0xD if units != 0 => (-size).to_bits(),
        _ => 0,
    }
}

/// The price's bytes, 0 where it is refused.
fn plain_write(price: u64) -> Word {
    let size = price & !SIGN;
    let (significand, exponent) = match size / ONE {
        0 => (size, -1074),
        field => (size % ONE + ONE, field as i32 - 1075),
    };
    // From 0 on it has too many digits, and 68 places below the product it is less than a half.
    if exponent >= 0 {
        return 0;
    }
    let (product, places) = (u128::from(significand) * u128::from(UNITS), exponent.unsigned_abs().min(68));
    let (whole, rest, half) = ((product >> places) as u64, product & ((1 << places) - 1), 1 << (places - 1));
    let mut units = whole + u64::from(rest > half || rest == half && whole % 2 == 1);
    if units > MOST {
        return 0;
    }
    let mut word = if price & SIGN != 0 && units != 0 { 0xD } else { 0xC };
    for place in 1..=DIGITS {
        word |= units % 10 << (4 * place);
        units /= 10;
    }
    word
}

// ---- ours

fn read(word: Word) -> u64 {
    let (price, number) = packed_read(&word.to_be_bytes());
    if number == 0 {
        price
    } else {
        0
    }
}

fn write(price: u64) -> Word {
    let mut packed = [0; 8];
    packed_write(price, &mut packed);
    Word::from_be_bytes(packed)
}

// ---- inputs

/// Of one to fifteen digits in turn, of either sign, as `plain_write` has them.
fn prices(words: &mut Words, count: usize) -> Vec<Word> {
    let price = |i| {
        let above = 10_u64.pow(1 + i % DIGITS as u32);
        let units = above / 10 + words.below(above - above / 10);
        plain_write((units as f64 / UNITS as f64).to_bits() | words.any() & SIGN)
    };
    (0..count as u32).map(price).collect()
}

/// A row: its name, its inputs, and both sides.
pub type Row = (&'static str, Vec<u64>, fn(u64) -> u64, fn(u64) -> u64);

pub fn rows(count: usize) -> [Row; 3] {
    let mut words = Words::new(1, "packed prices", 0);
    let packed = prices(&mut words, count);
    let read_from = packed.iter().map(|word| plain_read(*word)).collect();
    let floats = (0..count).map(|_| words.uniform(-1e11, 1e11).to_bits()).collect();
    [
        ("packed read, 1 to 15 digits", packed, read, plain_read),
        ("packed write, 1 to 15 digits", read_from, write, plain_write),
        ("packed write, floats below 10^11", floats, write, plain_write),
    ]
}
