//! `board`: quotes come and go on a live board, by calls that are read line by line from standard input. Each is answered
//! with a line before the next one is read, so that a program can wait for the answer.

use crate::{
    arguments::Arguments,
    board_view::write_board,
    failure::{Failure, USAGE},
    output, records,
};
use gintubalos::{Board, LiveQuote};
use std::{
    io::{self, BufRead, BufReader, IsTerminal, Read, Write},
    path::Path,
};

/// A line of so many bytes is no call: without a bound one that never ends would take all memory.
const TOO_LONG: usize = 4096;

const PROMPT: &str = "> ";

const CALLS: &str = "Calls: arrive SERIES VOLATILITY, leave SERIES, highest. Ctrl-D ends the board.";

/// What a line asks for.
enum Call {
    Arrive { series: u32, volatility: f64 },
    Leave { series: u32 },
    Highest,
}

/// Who watches.
struct Audience {
    /// Standard output is a terminal: the board is shown.
    watches: bool,
    /// Standard input is one as well: the calls are typed.
    types: bool,
}

/// The status: 0, or 64 where a line was no call.
pub fn board(arguments: Arguments, out: &mut impl Write) -> Result<u8, Failure> {
    arguments.end()?;
    let input = records::input().map_err(input_failure)?;
    let watches = io::stdout().is_terminal();
    let audience = Audience { watches, types: watches && input.is_terminal() };
    answer_calls(&mut BufReader::new(input), &audience, out)
}

fn input_failure(error: io::Error) -> Failure {
    Failure::file(records::name(Path::new("-")))(error)
}

fn answer_calls(input: &mut impl BufRead, audience: &Audience, out: &mut impl Write) -> Result<u8, Failure> {
    let (mut board, mut line, mut status) = (Board::new(), Vec::new(), 0);
    write_opening(&board, audience, out)?;
    for number in 1u64.. {
        write_prompt(audience, out)?;
        if !read_line(input, &mut line).map_err(input_failure)? {
            break;
        }
        match call_of(&line) {
            Ok(None) => {}
            Ok(Some(call)) => {
                let answer = answer_call(&mut board, call);
                write_answer(&answer, &board, audience, out)?;
            }
            Err(failure) => {
                status = USAGE;
                // With standard error gone, the status has to do.
                let _ = writeln!(io::stderr(), "gintubalos: line {number}: {failure}");
                write_wrong_line(number, audience, out)?;
            }
        }
    }
    // The shell's prompt begins a line of its own.
    if audience.types {
        writeln!(out)?;
    }
    Ok(status)
}

fn write_opening(board: &Board, audience: &Audience, out: &mut impl Write) -> io::Result<()> {
    if audience.types {
        writeln!(out, "{CALLS}")?;
    }
    if audience.watches {
        write_board(out, board)?;
    }
    out.flush()
}

fn write_prompt(audience: &Audience, out: &mut impl Write) -> io::Result<()> {
    if audience.types {
        out.write_all(PROMPT.as_bytes())?;
        out.flush()?;
    }
    Ok(())
}

fn write_answer(answer: &str, board: &Board, audience: &Audience, out: &mut impl Write) -> io::Result<()> {
    writeln!(out, "{answer}")?;
    if audience.watches {
        write_board(out, board)?;
    }
    out.flush()
}

/// A program that waits for an answer gets one to a wrong line, too; on a terminal the message is seen.
fn write_wrong_line(number: u64, audience: &Audience, out: &mut impl Write) -> io::Result<()> {
    if !audience.watches {
        writeln!(out, "wrong line {number}")?;
    }
    out.flush()
}

/// Reads the next line, of one that is too long the beginning; false at the end of the input.
fn read_line(input: &mut impl BufRead, line: &mut Vec<u8>) -> io::Result<bool> {
    line.clear();
    input.take(TOO_LONG as u64).read_until(b'\n', line)?;
    if line.len() == TOO_LONG && !line.ends_with(b"\n") {
        input.skip_until(b'\n')?;
    }
    Ok(!line.is_empty())
}

/// The call that a line is, none where it is blank or a comment alone.
fn call_of(line: &[u8]) -> Result<Option<Call>, Failure> {
    if line.len() == TOO_LONG {
        return Err(Failure::usage(format!("it has {TOO_LONG} bytes or more")));
    }
    let text = str::from_utf8(line).map_err(|_| Failure::usage("it is not UTF-8"))?;
    let words = text.split_once('#').map_or(text, |(words, _)| words);
    let mut arguments = Arguments::of_line(words);
    let Some(name) = arguments.call() else {
        return Ok(None);
    };
    let call = match &*name {
        "arrive" => Call::Arrive { series: arguments.series()?, volatility: arguments.float("VOLATILITY")? },
        "leave" => Call::Leave { series: arguments.series()? },
        "highest" => Call::Highest,
        other => return Err(Failure::usage(format!("there is no call {other}, but arrive, leave and highest"))),
    };
    arguments.end()?;
    Ok(Some(call))
}

/// What is answered, on one line. A refusal is an answer, too.
fn answer_call(board: &mut Board, call: Call) -> String {
    match call {
        Call::Arrive { series, volatility } => match board.arrive(series, volatility) {
            Ok(()) => format!("arrived {series}"),
            Err(refusal) => refusal.to_string(),
        },
        Call::Leave { series } if board.leave(series) => format!("left {series}"),
        Call::Leave { series } => format!("not live {series}"),
        Call::Highest => match board.highest() {
            Some(LiveQuote { series, volatility }) => {
                format!("highest {series} {} {}", output::decimal(volatility), output::bits(volatility))
            }
            None => "none".to_owned(),
        },
    }
}
