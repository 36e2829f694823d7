//! The archive's calls on a board that stands among other bytes, and one call beside what is expected of it.

use crate::{
    board::{Answer, Call, Quote, NONE},
    board_layout::{Bytes, BYTES},
    solves::first_difference,
    tally::Tally,
};
use gintubalos::bits::{board_arrive, board_leave};
use std::hint::black_box;

extern "C" {
    fn gintubalos_board_highest(board: &Bytes, series: &mut u32, volatility: &mut u64) -> u8;
}

/// The words are no zeros before, as they are in the crate's call, so that it shows where none are written.
fn highest(board: &Bytes) -> (u8, Quote) {
    let mut quote = Quote { series: 0xA5A5_A5A5, volatility: 0x5A5A_5A5A_5A5A_5A5A };
    // SAFETY: the function reads the board and writes the two words, and nothing else; it has no requires, keeps no
    // pointer, and is proved to end.
    let is_shown = unsafe { gintubalos_board_highest(board, &mut quote.series, &mut quote.volatility) };
    (is_shown, quote)
}

/// What stands before the board and behind it: an odd number of bytes, so that the board is aligned to nothing.
const GUARD: [u8; 61] = [0xA5; 61];

pub struct Lent {
    bytes: [u8; GUARD.len() + BYTES + GUARD.len()],
}

impl Lent {
    pub fn new(board: &Bytes) -> Lent {
        let mut bytes = [GUARD[0]; GUARD.len() + BYTES + GUARD.len()];
        bytes[GUARD.len()..GUARD.len() + BYTES].copy_from_slice(board);
        Lent { bytes }
    }

    fn board(&self) -> &Bytes {
        black_box(self.bytes[GUARD.len()..].first_chunk().expect("a board"))
    }

    fn board_mut(&mut self) -> &mut Bytes {
        self.bytes[GUARD.len()..].first_chunk_mut().expect("a board")
    }

    fn answer(&mut self, call: Call) -> Answer {
        match call {
            Call::Arrive(quote) => (board_arrive(self.board_mut(), quote.series, quote.volatility), NONE),
            Call::Leave(series) => (board_leave(self.board_mut(), series), NONE),
            Call::Highest => highest(self.board()),
        }
    }

    /// Whether the bytes about the board are as they were.
    fn others_stay(&self) -> bool {
        self.bytes.starts_with(&GUARD) && self.bytes.ends_with(&GUARD)
    }

    /// Compares a call with the answer and the board's bytes that are expected, and says whether they are the same. Of a
    /// difference it says whose they are, and what was before the call.
    pub fn compare(
        &mut self,
        tally: &mut Tally,
        call: Call,
        (expected, bytes): (Answer, &Bytes),
        whose: &str,
        before: impl FnOnce() -> String,
    ) -> bool {
        let found = self.answer(call);
        let is_same = found == expected && self.board() == bytes && self.others_stay();
        tally.count(is_same, || {
            let (call, before) = (text_of_call(call), before());
            let (found, expected) = (text_of_answer(found), text_of_answer(expected));
            let bytes = first_difference(self.board(), bytes);
            let others = if self.others_stay() { "" } else { ", and bytes about the board are written" };
            format!("{call}, {before}: {found}, {whose} has {expected}{bytes}{others}")
        });
        is_same
    }
}

pub fn text_of_call(call: Call) -> String {
    match call {
        Call::Arrive(quote) => format!("board_arrive({})", text_of_quote(quote)),
        Call::Leave(series) => format!("board_leave({series})"),
        Call::Highest => "board_highest()".to_string(),
    }
}

pub fn text_of_quote(quote: Quote) -> String {
    format!("{}, {:016X}", quote.series, quote.volatility)
}

fn text_of_answer((number, quote): Answer) -> String {
    format!("{number} ({})", text_of_quote(quote))
}
