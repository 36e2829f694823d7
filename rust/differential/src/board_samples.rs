//! The samples of the live board, number 42 of the list: some quotes fill a board, up to eight calls follow, and a line asks
//! for one word: what the last call answers, or a number of four bytes that stands on the board. Answers are those of the
//! board that is written from document 02's text.

use crate::{
    board::{Answer, Board, Call, Quote, NONE},
    board_layout::{bytes_of, Bytes, BYTES},
    samples::line,
};
use random_words::Words;

const BOARD: usize = 42;

/// What a line asks for: the number or yes, the shown series, the shown volatility; from 3 on the board's numbers.
const SAID: [usize; 3] = [0, 1, 2];
const COUNT: usize = 3 + BYTES / 4 - 1;

/// The series at a place, and its volatility's upper half.
const fn place(i: usize) -> [usize; 2] {
    [3 + 3 * i, 5 + 3 * i]
}

/// The volatilities that a call's digit names, as the program has them; 0 and 15 name other calls.
const VOLATILITIES: [f64; 16] = [
    0.0,
    0.0,
    -0.0,
    0.2,
    0.3,
    0.96875,
    1.0,
    f64::INFINITY,
    f64::NEG_INFINITY,
    f64::from_bits(1),
    f64::from_bits(1 << 63 | 1),
    -1.0,
    f64::from_bits(0x7FF8 << 48),
    f64::from_bits(0x7FF0_0000_0000_0001),
    f64::from_bits(u64::MAX),
    0.0,
];

fn quote(series: u32, volatility: f64) -> Quote {
    Quote { series, volatility: volatility.to_bits() }
}

/// Series 999, which does not fill a board, those from 1000 on, and from digit 8 on the last ones of a full board.
fn call_of(byte: u8) -> Call {
    let digit = u32::from(byte / 16);
    let series = digit + if digit < 8 { 999 } else { 1240 };
    match byte % 16 {
        0 => Call::Leave(series),
        15 => Call::Highest,
        digit => Call::Arrive(quote(series, VOLATILITIES[usize::from(digit)])),
    }
}

/// A board that so many quotes fill, with 16 to 31 thirty-seconds by turns.
fn filled(count: u32) -> Board {
    let mut board = Board::default();
    (0..count).for_each(|i| _ = board.answer(Call::Arrive(quote(1000 + i, f64::from(16 + i % 16) / 32.0))));
    board
}

/// What the last of a word's calls answers, two hexadecimal digits each, and the board's bytes after it.
fn answer(count: u32, word: u64) -> (Call, Answer, Bytes) {
    let mut board = filled(count);
    let mut last = (Call::Highest, (0, NONE));
    for byte in word.to_be_bytes().into_iter().filter(|byte| *byte != 0) {
        let call = call_of(byte);
        last = (call, board.answer(call));
    }
    (last.0, last.1, bytes_of(&board.live_quotes()))
}

fn number_at(bytes: &Bytes, i: usize) -> u64 {
    u32::from_le_bytes(std::array::from_fn(|j| bytes[4 * i + j])).into()
}

fn write_line(count: u32, word: u64, asked: usize) {
    let (call, (said, shown), bytes) = answer(count, word);
    let (said, number) = if matches!(call, Call::Arrive(_)) { (0, said) } else { (said, 0) };
    let bits = match asked {
        0 => said.into(),
        1 => shown.series.into(),
        2 => shown.volatility,
        _ => number_at(&bytes, asked - 3),
    };
    line(BOARD, [count.into(), word, asked as u64, 0, 0, 0, 0, 0, 0], (bits, number));
}

fn write_lines(count: u32, word: u64, asked: impl IntoIterator<Item = usize>) {
    asked.into_iter().for_each(|asked| write_line(count, word, asked));
}

/// 33, 34 and 35 in their order: on an empty board, one of two, one of 255, and a full one.
fn refused() {
    [0x1C, 0x1D].into_iter().for_each(|word| write_line(0, word, 0));
    write_lines(0, 0x1E, [0, place(0)[0], place(0)[1], COUNT]);
    [0x2C, 0x24].into_iter().for_each(|word| write_lines(2, word, [0, place(1)[1], COUNT]));
    write_lines(2, 0x3C, [0, place(2)[0]]);
    [0x1C, 0xFD, 0x14].into_iter().for_each(|word| write_line(255, word, 0));
    [0x1C, 0x0E, 0x14].into_iter().for_each(|word| write_line(256, word, 0));
    write_lines(256, 0x04, [0, COUNT]);
}

/// The first of a full board leaves, one amidst and the last, and another one fills it again.
fn left_and_filled() {
    write_lines(256, 0x10, [&[0, COUNT], &place(0)[..], &place(255)].concat());
    write_lines(256, 0x50, [0, place(3)[0], place(4)[0], place(255)[0], COUNT]);
    write_lines(256, 0xF0, [0, place(254)[0], place(255)[0], COUNT]);
    write_lines(256, 0x10_10, [0, COUNT]);
    write_lines(256, 0x10_06_0F, [&SAID[..], &place(255), &[COUNT]].concat());
    write_line(256, 0x10_06_13, 0);
    write_lines(255, 0xF5, [&[0, COUNT], &place(255)[..]].concat());
}

/// Three equal quotes, of which the earliest leaves, arrives again, and the next one leaves; zeros of both signs.
fn equal_ones() {
    for word in [0x14_24_34_0F, 0x14_24_34_10_0F, 0x14_24_34_10_14_0F, 0x14_24_34_10_14_20_0F] {
        write_line(0, word, 1);
    }
    for word in [0x12_21_0F, 0x11_22_0F, 0x12_21_10_0F, 0x1A_22_31_0F] {
        write_lines(0, word, [1, 2]);
    }
}

pub fn write(seed: u64) {
    write_lines(0, 0x0F, SAID);
    [(0, 0x10), (1, 0x20), (1, 0x10)].into_iter().for_each(|(count, word)| write_line(count, word, 0));
    [1, 256].into_iter().for_each(|count| write_lines(count, 0x0F, SAID));
    refused();
    left_and_filled();
    equal_ones();
    // Infinities and subnormals.
    [0x18_0F, 0x18_27_37_0F, 0x11_29_0F, 0x1B_2A_0F].into_iter().for_each(|word| write_line(0, word, 2));
    // All leave, and one arrives.
    write_lines(3, 0x10_20_30_0F, [0, place(0)[0], COUNT]);
    write_lines(3, 0x10_20_30_13_0F, [2, COUNT]);
    let mut words = Words::new(seed, "board", 0);
    for count in [0, 3, 7, 250, 256] {
        write_lines(count, words.any() | 15, [1, COUNT]);
    }
}
