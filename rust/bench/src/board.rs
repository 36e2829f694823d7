//! The live board's rows: boards of 256 quotes, and each call as it takes longest, and after many calls before it.

use gintubalos::bits::{self, board_highest as highest, board_leave as leave};
use random_words::Words;

const MOST: usize = 256;
const PLACE: usize = 12;
const COUNT_AT: usize = PLACE * MOST;

pub type Board = [u8; COUNT_AT + 4];

fn arrive(board: &mut Board, series: u32, volatility: f64) -> u8 {
    bits::board_arrive(board, series, volatility.to_bits())
}

// ---- what a call finds

fn put_count(board: &mut Board, count: usize) {
    board[COUNT_AT..].copy_from_slice(&(count as u32).to_le_bytes());
}

fn series_at(board: &Board, place: usize) -> u32 {
    u32::from_le_bytes(std::array::from_fn(|i| board[PLACE * place + i]))
}

/// Of series 0 to 255.
fn board_of(mut volatility: impl FnMut(usize) -> f64) -> Board {
    let mut board = [0; COUNT_AT + 4];
    (0..MOST).for_each(|i| _ = arrive(&mut board, i as u32, volatility(i)));
    board
}

fn usual(words: &mut Words) -> f64 {
    words.uniform(0.1, 0.6)
}

/// Series that no board below has.
fn new_series(words: &mut Words) -> u32 {
    words.any() as u32 | 1 << 31
}

/// A full board after a hundred thousand random calls: from none to all leave, and as many others arrive.
fn after_many_calls(words: &mut Words) -> Board {
    let mut board = board_of(|_| usual(words));
    let mut calls = 0;
    while calls < 100_000 {
        let leaving = words.below(MOST as u64 + 1) as usize;
        for live in (MOST - leaving + 1..=MOST).rev() {
            let series = series_at(&board, words.below(live as u64) as usize);
            leave(&mut board, series);
        }
        (0..leaving).for_each(|_| while arrive(&mut board, words.any() as u32 >> 1, usual(words)) != 0 {});
        calls += 2 * leaving;
    }
    board
}

/// The quote of a place leaves, and stands behind the others again: a call finds 256 each time.
fn leave_and_put_back(board: &mut Board, place: usize) -> u64 {
    let at = PLACE * place;
    let quote: [u8; PLACE] = std::array::from_fn(|i| board[at + i]);
    let left = leave(board, series_at(board, place));
    board[COUNT_AT - PLACE..COUNT_AT].copy_from_slice(&quote);
    put_count(board, MOST);
    left.into()
}

/// Each row with its inputs, words that say what is asked, and its call, which answers 1.
pub fn rows(count: usize, mut row: impl FnMut(&str, &[u64], &mut dyn FnMut(&u64) -> u64)) {
    let mut words = Words::new(1, "board", 0);
    let rising = board_of(|i| 0.1 + i as f64 / 1000.0);
    let falling = board_of(|i| 0.6 - i as f64 / 1000.0);
    let random: [Board; 32] = std::array::from_fn(|_| board_of(|_| usual(&mut words)));
    let old: [Board; 32] = std::array::from_fn(|_| after_many_calls(&mut words));

    let arrivals: Vec<u64> = (0..count).map(|_| new_series(&mut words).into()).collect();
    let turns: Vec<u64> = (0..count as u64).collect();
    let places: Vec<u64> = (0..count).map(|_| words.below(MOST as u64)).collect();

    for (name, mut board) in [("255 live", rising), ("255 live after many calls", old[0])] {
        row(&format!("board arrive, {name}"), &arrivals, &mut |series| {
            put_count(&mut board, MOST - 1);
            u64::from(arrive(&mut board, *series as u32, 0.3) == 0)
        });
    }
    for (name, place) in [("the first", 0), ("amidst", MOST / 2), ("the last", MOST - 1)] {
        let mut board = rising;
        row(&format!("board leave, {name} of 256"), &turns, &mut |_| leave_and_put_back(&mut board, place));
    }
    let mut board = old[0];
    row("board leave, any of 256 after many calls", &places, &mut |place| {
        leave_and_put_back(&mut board, *place as usize)
    });
    for (name, boards) in [
        ("rising volatilities", &[rising][..]),
        ("falling volatilities", &[falling]),
        ("random volatilities", &random),
        ("after many calls", &old),
    ] {
        row(&format!("board highest of 256, {name}"), &turns, &mut |turn| {
            highest(&boards[*turn as usize % boards.len()]).0.into()
        });
    }
}
