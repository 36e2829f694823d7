//! `gintubalos`: demo, solve, range, black, file, recheck, list, show, board, packed and sqrt on the command line. Every
//! answer is the proved library's; this program reads arguments and files, and writes answers down.

#![forbid(unsafe_code)]

mod arguments;
mod board_view;
mod book_file;
mod demo;
mod failure;
mod filing;
mod help;
mod live_board;
mod output;
mod packed_price;
mod progress;
mod ranging;
mod rechecking;
mod records;
mod solving;
mod square_root;

use arguments::Arguments;
use failure::Failure;
use std::{
    env,
    fs::File,
    io::{self, BufWriter, ErrorKind, Write},
    os::fd::AsFd,
    process::ExitCode,
};

fn main() -> ExitCode {
    // As a file: std's own takes an output that is not open for writing for one that takes everything.
    let out = io::stdout().as_fd().try_clone_to_owned().map(|fd| BufWriter::new(File::from(fd)));
    match out.map_err(Failure::from).and_then(answer) {
        Ok(status) => ExitCode::from(status),
        Err(failure) => {
            // A reader that has left has seen what it wanted: there is no message.
            if !matches!(&failure, Failure::Output { error } if error.kind() == ErrorKind::BrokenPipe) {
                // With standard error gone as well, the status has to do.
                let _ = writeln!(io::stderr(), "gintubalos: {failure}");
            }
            ExitCode::from(failure.status())
        }
    }
}

/// The same once all is written.
fn answer(mut out: impl Write) -> Result<u8, Failure> {
    match run(&mut out) {
        unshown @ Err(Failure::Unshown { .. }) => unshown,
        // What is written before a refusal comes before its words.
        result => out.flush().map_err(Failure::from).and(result),
    }
}

/// The status: 0, what a recheck found, the number of a range's end or of a packed price, or that a board was given a line
/// that is no call.
fn run(out: &mut impl Write) -> Result<u8, Failure> {
    let mut words = env::args_os().skip(1);
    let command = words.next().filter(|command| !command.is_empty()).ok_or_else(|| {
        Failure::usage(
            "a command is wanted: demo, solve, range, black, file, recheck, list, show, board, packed or sqrt",
        )
    })?;
    let mut arguments = Arguments::default();
    for word in words {
        arguments.take(word)?;
    }
    let command = command.to_string_lossy();
    if arguments.help || ["--help", "-h", "help"].contains(&&*command) {
        help::write(out, &command)?;
        return Ok(0);
    }
    match &*command {
        "--version" => {
            arguments.end()?;
            write_version(out)?;
        }
        "demo" => {
            arguments.end()?;
            return demo::demo(out);
        }
        "solve" => solving::solve(arguments, out)?,
        "range" => return ranging::range(arguments, out),
        "black" => solving::black(arguments, out)?,
        "file" => filing::file(arguments, out)?,
        "recheck" => return rechecking::recheck(arguments, out),
        "list" => rechecking::list(arguments, out)?,
        "show" => filing::show(arguments, out)?,
        "board" => return live_board::board(arguments, out),
        "packed" => return packed_price::packed(arguments, out),
        "sqrt" => square_root::square_root(arguments, out)?,
        other => return Err(Failure::usage(format!("there is no command {other}"))),
    }
    Ok(0)
}

/// What it was built from; the build script asks for it.
fn write_version(out: &mut impl Write) -> io::Result<()> {
    writeln!(out, "gintubalos {}", env!("CARGO_PKG_VERSION"))?;
    writeln!(out, "commit   {}", env!("GINTUBALOS_COMMIT"))?;
    writeln!(out, "kit      {}", env!("GINTUBALOS_KIT"))?;
    writeln!(out, "archive  sha256 {}", env!("GINTUBALOS_HASH"))
}
