//! Quotes come and go in the trading room. Which one is on show, for its volatility is the highest?
//!
//! 18 and 19 have the same volatility: the one that arrived first is shown, and the other once it has left. For a class: say
//! what is on show before each line is printed. What is shown after 18 has come back, and why?
//!
//! `cargo run --release --example live_board`

use gintubalos::{Board, Refusal};

fn show(what: &str, board: &Board) {
    match board.highest() {
        Some(quote) => println!("{what}: {} is on show, with a volatility of {}", quote.series, quote.volatility),
        None => println!("{what}: nothing is on show"),
    }
}

fn main() -> Result<(), Refusal> {
    let mut board = Board::new();
    show("an empty board", &board);
    for (series, volatility) in [(17, 0.2), (18, 0.25), (19, 0.25), (20, 0.18)] {
        board.arrive(series, volatility)?;
        show(&format!("{series} arrives with {volatility}"), &board);
    }
    board.leave(18);
    show("18 leaves", &board);
    board.arrive(18, 0.25)?;
    show("18 comes back with 0.25", &board);
    if let Err(refusal) = board.arrive(20, 0.3) {
        println!("20 arrives with 0.3: {refusal}");
    }
    let series: Vec<u32> = board.iter().map(|quote| quote.series).collect();
    println!("live, in order of arrival: {series:?}");
    Ok(())
}
