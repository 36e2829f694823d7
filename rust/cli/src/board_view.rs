//! The live board as a class sees it: its quotes side by side in order of arrival, the highest one marked.

use crate::output::{counted, decimal};
use gintubalos::{Board, LiveQuote};
use std::io::{self, Write};

/// A screen's width, and what it has room for between a call and the next one's prompt.
const WIDTH: usize = 80;
const MOST_ROWS: usize = 18;

/// What stands between two quotes of a row.
const GAP: &str = "   ";

pub fn write_board(out: &mut impl Write, board: &Board) -> io::Result<()> {
    if board.is_empty() {
        return writeln!(out, "no quote is live\n");
    }
    writeln!(out, "{} in order of arrival, * the highest:", counted(board.len() as u64, "live quote"))?;
    let cells = cells(board);
    let columns = columns(&cells[0]);
    for row in cells.chunks(columns).take(MOST_ROWS) {
        writeln!(out, "{}", row.join(GAP).trim_end())?;
    }
    let hidden = cells.get(columns * MOST_ROWS..).unwrap_or_default();
    if !hidden.is_empty() {
        write!(out, "not shown: {} more", hidden.len())?;
        match hidden.iter().find(|cell| cell.starts_with('*')) {
            Some(cell) => writeln!(out, ", among them {}", cell.trim_end())?,
            None => writeln!(out)?,
        }
    }
    writeln!(out)
}

/// The quotes, all of one width.
fn cells(board: &Board) -> Vec<String> {
    let highest = board.highest().map(|quote| quote.series);
    let series_width = widest(board.iter().map(|quote| quote.series.to_string()));
    let volatility_width = widest(board.iter().map(|quote| decimal(quote.volatility)));
    let cell = |LiveQuote { series, volatility }| {
        let mark = if Some(series) == highest { '*' } else { ' ' };
        format!("{mark} {series:>series_width$}  {:<volatility_width$}", decimal(volatility))
    };
    board.iter().map(cell).collect()
}

fn widest(texts: impl Iterator<Item = String>) -> usize {
    texts.map(|text| text.len()).max().unwrap_or(0)
}

/// How many quotes of this width stand side by side: two at least, since the longest has 38 characters.
fn columns(cell: &str) -> usize {
    (WIDTH + GAP.len()) / (cell.len() + GAP.len())
}

#[cfg(test)]
mod tests {
    use super::write_board;
    use gintubalos::Board;

    fn shown(quotes: impl IntoIterator<Item = (u32, f64)>) -> String {
        let mut board = Board::new();
        for (series, volatility) in quotes {
            board.arrive(series, volatility).expect("a new series");
        }
        let mut out = Vec::new();
        write_board(&mut out, &board).expect("written");
        String::from_utf8(out).expect("text")
    }

    #[test]
    fn few() {
        assert_eq!(shown([]), "no quote is live\n\n");
        assert_eq!(shown([(17, 0.25)]), "1 live quote in order of arrival, * the highest:\n* 17  0.25\n\n");
        assert_eq!(
            shown([(170, 0.2), (18, 0.25), (1, 0.25), (2, -0.0)]),
            "4 live quotes in order of arrival, * the highest:\n\
             \x20 170  0.2    *  18  0.25       1  0.25       2  -0.0\n\n"
        );
    }

    /// A screen has room for all that is shown, and the highest is told wherever it stands.
    #[test]
    fn many() {
        for (first, volatility, hidden) in [(0, 0.25, 256 - 5 * 18), (u32::MAX - 255, -f64::MIN_POSITIVE, 256 - 2 * 18)]
        {
            let last = first + 255;
            for (highest, among) in [(first, String::new()), (last, format!(", among them * {last}  0.5"))] {
                let volatility = |series| if series == highest { 0.5 } else { volatility };
                let text = shown((first..=last).map(|series| (series, volatility(series))));
                let lines: Vec<&str> = text.lines().collect();
                assert_eq!((lines.len(), lines[20]), (21, ""), "{text}");
                assert_eq!(lines[19], format!("not shown: {hidden} more{among}"));
                assert!(lines.iter().all(|line| line.len() <= 80), "{text}");
                assert_eq!(text.matches('*').count(), 2, "{text}");
            }
        }
    }
}
