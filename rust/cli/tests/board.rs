//! `board`: calls from standard input, each answered before the next one is read, and lines that are none.

mod common;

use common::{output, output_of, place, program, results, words};
use std::{
    fs::{self, File, OpenOptions},
    io::{stderr, BufRead, BufReader, ErrorKind, Write},
    process::{Command, Stdio},
    sync::mpsc,
    thread,
    time::Duration,
};

/// All that some calls are answered with.
fn answers(calls: &str, expected: &str) {
    assert_eq!(output_of(&["board"], calls.as_bytes()), (0, expected.to_owned(), String::new()), "{calls}");
}

#[test]
fn calls() {
    answers("", "");
    answers("highest\nleave 0\n", "none\nnot live 0\n");
    answers(
        "arrive 17 0.25\narrive 18 0x3FE0000000000000\narrive 19 3FE0000000000000\nhighest\nleave 18\nhighest\nleave 18\n\
         leave 19\nhighest\narrive 19 -1e-3\nhighest\nleave 17\nhighest\nleave 19\nhighest\n",
        "arrived 17\narrived 18\narrived 19\nhighest 18 0.5 3FE0000000000000\nleft 18\n\
         highest 19 0.5 3FE0000000000000\nnot live 18\nleft 19\nhighest 17 0.25 3FD0000000000000\narrived 19\n\
         highest 17 0.25 3FD0000000000000\nleft 17\nhighest 19 -0.001 BF50624DD2F1A9FC\nleft 19\nnone\n",
    );
    // The ends of the series, zeros of either sign, and infinities.
    answers(
        "arrive 4294967295 -inf\nhighest\narrive 0 -0\narrive 1 0\nhighest\narrive 2 inf\nhighest\n",
        "arrived 4294967295\nhighest 4294967295 -inf FFF0000000000000\narrived 0\narrived 1\n\
         highest 0 -0.0 8000000000000000\narrived 2\nhighest 2 inf 7FF0000000000000\n",
    );
}

/// A refusal is an answer: the status is 0.
#[test]
fn refusals() {
    let mut calls: String = (0..256).map(|series| format!("arrive {series} 0.{series}\n")).collect();
    let mut expected: String = (0..256).map(|series| format!("arrived {series}\n")).collect();
    calls += "arrive 0 nan\narrive 256 FFF8000000000001\narrive 0 1\narrive 256 1\nleave 7\narrive 256 1\narrive 7 1\n";
    expected += "refused with 33: the volatility is NaN\nrefused with 33: the volatility is NaN\n\
                 refused with 34: the series is live already\nrefused with 35: 256 quotes are live\nleft 7\n\
                 arrived 256\nrefused with 35: 256 quotes are live\n";
    answers(&calls, &expected);
}

/// Blank lines, comments, blanks and tabs, the ends of Windows' lines, and a last line without an end.
#[test]
fn lines() {
    answers("\n  \t\n# a comment\n  # arrive 1 1\n\r\n", "");
    answers(
        "# the exercise\n\n  arrive\t17   0.25 # at nine\r\narrive 018 0.5#\n\thighest\nleave 17",
        "arrived 17\narrived 18\nhighest 18 0.5 3FE0000000000000\nleft 17\n",
    );
    let long = format!("arrive 17 0.25 #{}\nhighest\n", ".".repeat(4096 - 18));
    answers(&long, "arrived 17\nhighest 17 0.25 3FD0000000000000\n");
}

/// A line that is no call is told with its number, on standard error with the reason; it changes nothing, and reading goes on.
#[test]
fn wrong_lines() {
    for (line, message) in [
        ("arrvie 17 0.25", "there is no call arrvie, but arrive, leave and highest"),
        ("Highest", "there is no call Highest, but arrive, leave and highest"),
        ("--help", "there is no call --help, but arrive, leave and highest"),
        ("arrive", "SERIES is missing"),
        ("leave # 16", "SERIES is missing"),
        ("arrive 17", "VOLATILITY is missing"),
        ("arrive 17 0.25 0.5", "0.5 is one word too many"),
        ("leave 16 17", "17 is one word too many"),
        ("highest 16", "16 is one word too many"),
        ("leave -1", "SERIES: -1 is no whole number from 0 to 4294967295"),
        ("leave 4294967296", "SERIES: 4294967296 is no whole number from 0 to 4294967295"),
        ("arrive 16.0 0.25", "SERIES: 16.0 is no whole number from 0 to 4294967295"),
        ("arrive 0x10 0.25", "SERIES: 0x10 is no whole number from 0 to 4294967295"),
        ("arrive 17 0,25", "VOLATILITY: 0,25 is neither a decimal number nor sixteen hexadecimal digits"),
        ("arrive 17 0x25", "VOLATILITY: 0x25 is neither a decimal number nor sixteen hexadecimal digits"),
        ("arrive 17 --limit", "VOLATILITY: --limit is neither a decimal number nor sixteen hexadecimal digits"),
        ("leave\u{a0}16", "there is no call leave\u{a0}16, but arrive, leave and highest"),
    ] {
        let (status, out, err) = output_of(&["board"], format!("arrive 16 0.5\n\n{line}\nhighest\n").as_bytes());
        assert_eq!((status, &*out), (64, "arrived 16\nwrong line 3\nhighest 16 0.5 3FE0000000000000\n"), "{line}");
        assert_eq!(err, format!("gintubalos: line 3: {message}; see gintubalos --help\n"), "{line}");
    }
    // Each is told. A line that never ends is not kept.
    let long = ["x".repeat(4096), format!("highest{}", " ".repeat(100_000))].join("\n");
    let input = [b"\xFF\n", long.as_bytes(), b"\nhighest\nleave \xC3\n"].concat();
    let answers = "wrong line 1\nwrong line 2\nwrong line 3\nnone\nwrong line 5\n";
    let errors = "gintubalos: line 1: it is not UTF-8; see gintubalos --help\n\
                  gintubalos: line 2: it has 4096 bytes or more; see gintubalos --help\n\
                  gintubalos: line 3: it has 4096 bytes or more; see gintubalos --help\n\
                  gintubalos: line 5: it is not UTF-8; see gintubalos --help\n";
    assert_eq!(output_of(&["board"], &input), (64, answers.to_owned(), errors.to_owned()));
}

/// A program that waits for each answer before it sends the next call gets it, with standard input open.
#[test]
fn dialogue() {
    let piped = Stdio::piped;
    let mut child = program().arg("board").stdin(piped()).stdout(piped()).spawn().expect("the program starts");
    let mut calls = child.stdin.take().expect("a pipe");
    let answers = BufReader::new(child.stdout.take().expect("a pipe"));
    let (sender, receiver) = mpsc::channel();
    let reader = thread::spawn(move || {
        for answer in answers.lines() {
            sender.send(answer.expect("text")).expect("the test listens");
        }
    });
    for (call, answer) in [
        ("arrive 17 0.25\n", "arrived 17"),
        ("# a comment\n\nhighest\n", "highest 17 0.25 3FD0000000000000"),
        ("arrive 17 0.5\n", "refused with 34: the series is live already"),
        ("leave 17\n", "left 17"),
        ("leave 17\n", "not live 17"),
        ("highest\n", "none"),
    ] {
        calls.write_all(call.as_bytes()).expect("written");
        // Without an answer the program goes with the pipes.
        let answered = receiver.recv_timeout(Duration::from_secs(60)).expect("an answer");
        assert_eq!(answered, answer, "{call}");
    }
    drop(calls);
    assert_eq!(child.wait().expect("it ends").code(), Some(0));
    reader.join().expect("it ends");
    assert!(receiver.try_recv().is_err());
}

/// What can't be read or written.
#[test]
fn wrong_ends() {
    let with = |input: Stdio, out: Stdio| {
        results(program().arg("board").stdin(input).stdout(out).output().expect("the program starts"))
    };
    // A folder, and what is open for writing alone.
    let folder = File::open(env!("CARGO_TARGET_TMPDIR")).expect("a folder");
    let unreadable = OpenOptions::new().write(true).open("/dev/null").expect("a device of Linux");
    for input in [folder, unreadable] {
        let (status, out, err) = with(input.into(), Stdio::piped());
        assert!(status == 74 && out.is_empty() && err.starts_with("gintubalos: standard input: "), "{err}");
    }
    let calls = place("board_calls");
    fs::write(&calls, "arrive 17 0.25\nhighest\n").expect("written");
    let full = OpenOptions::new().write(true).open("/dev/full").expect("a device of Linux");
    let unwritable = File::open("/dev/null").expect("a device of Linux");
    for out in [full, unwritable] {
        let (status, _, err) = with(File::open(&calls).expect("calls").into(), out.into());
        assert!(status == 74 && err.starts_with("gintubalos: standard output: "), "{err}");
    }
}

/// A reader that has left is told nothing.
#[test]
fn broken_pipe() {
    let piped = Stdio::piped;
    let mut child =
        program().arg("board").stdin(piped()).stdout(piped()).stderr(piped()).spawn().expect("the program starts");
    drop(child.stdout.take());
    let mut calls = child.stdin.take().expect("a pipe");
    // More than one: a program that another test starts at this moment has both pipes, until it runs.
    while calls.write_all(b"highest\n").is_ok() {}
    let output = child.wait_with_output().expect("the program ends");
    assert_eq!((output.status.code(), &*output.stderr), (Some(74), &b""[..]));
}

#[test]
fn usage() {
    for (line, message) in [
        ("board now", "now is one word too many"),
        ("board -", "- is one word too many"),
        ("board --all", "--all is not for this command"),
        ("board --rules 0", "--rules is not for this command"),
    ] {
        let expected = (64, String::new(), format!("gintubalos: {message}; see gintubalos --help\n"));
        assert_eq!(output(&words(line)), expected, "{line}");
    }
    let (status, out, err) = output(&words("board --help"));
    assert!(status == 0 && err.is_empty() && out.starts_with("  gintubalos board\n"), "{out}");
    for part in ["arrive SERIES VOLATILITY  ", "\n  34  the series is live already\n", "or 64 if a line was no\n"] {
        assert!(out.contains(part), "{out}");
    }
    assert!(!out.contains("gintubalos show") && !out.contains("gintubalos --version"), "{out}");
}

const WATCHED: &str = "\
no quote is live

arrived 17
1 live quote in order of arrival, * the highest:
* 17  0.25

arrived 4
2 live quotes in order of arrival, * the highest:
  17  0.25   *  4  0.5

refused with 34: the series is live already
2 live quotes in order of arrival, * the highest:
  17  0.25   *  4  0.5

left 17
1 live quote in order of arrival, * the highest:
* 4  0.5

highest 4 0.5 3FE0000000000000
1 live quote in order of arrival, * the highest:
* 4  0.5

";

/// On a terminal, which util-linux's script makes, the board is shown after each call; a prompt comes where calls are typed.
#[test]
fn on_a_terminal() {
    let calls = place("board_watched");
    fs::write(&calls, "arrive 17 0.25\narrive 4 0.5\narrive 4 1\nleave 17\nhighest\n").expect("written");
    let script = |line: &str, input: Stdio| {
        Command::new("script").args(["-qec", line, "/dev/null"]).stdin(input).stderr(Stdio::null()).output()
    };
    let program = env!("CARGO_BIN_EXE_gintubalos");
    match script("true", Stdio::null()) {
        Ok(output) if output.status.success() => {}
        Err(error) if error.kind() != ErrorKind::NotFound => panic!("{error}"),
        _ => {
            // Past the test's own capture, so that it is seen.
            writeln!(stderr(), "no script of util-linux is at hand: the terminal was not tried")
                .expect("standard error");
            return;
        }
    }
    let shown = |line: String, input: Stdio| {
        let (status, out, _) = results(script(&line, input).expect("it starts"));
        assert_eq!(status, 0, "{out}");
        out.replace('\r', "")
    };
    let watched = shown(format!("'{program}' board < '{}'", calls.display()), Stdio::null());
    assert_eq!(watched, WATCHED);
    let typed = shown(format!("'{program}' board"), File::open(&calls).expect("calls").into());
    // What is typed is shown by the terminal, anywhere between what the program writes.
    assert!(typed.contains("Calls: arrive SERIES VOLATILITY, leave SERIES, highest. Ctrl-D ends"), "{typed}");
    assert!(typed.contains("highest 4 0.5 3FE0000000000000\n") && typed.contains("no quote is live\n"), "{typed}");
    assert_eq!(typed.matches("> ").count(), 6, "{typed}");
}
