//! `--rules`: the student's Call under both rule sets in each command that has the option, and rule sets that there are not.

mod common;

use common::{output, output_of, place, words};
use std::{fs, path::Path};

/// Document 02's own example.
const STUDENT: &str = "120 200 100 1 call";

const ORIGINAL: &str = "\
volatility  1.7976931348623157e308    7FEFFFFFFFFFFFFF
            no volatility is meant: the price is at or above the maximum
branch      0, answered before a guess
ending      0, no loop
steps       0
";

const TEXTBOOK: &str = "\
volatility  1.0239178607411308        3FF061F7B1DAC668
branch      2, lower middle
ending      2, limit
steps       2
";

/// All that the line says, with a status of 0.
fn answers(line: &str, expected: &str) {
    assert_eq!(output(&words(line)), (0, expected.to_owned(), String::new()), "{line}");
}

#[test]
fn solve() {
    answers(&format!("solve {STUDENT}"), ORIGINAL);
    answers(&format!("solve {STUDENT} --rules 0"), ORIGINAL);
    answers(&format!("solve {STUDENT} --rules 1"), TEXTBOOK);
    answers(&format!("solve --rules=1 {STUDENT}"), TEXTBOOK);
    // Of an option that is given twice the last counts.
    answers(&format!("solve --rules 7 {STUDENT} --rules 1"), TEXTBOOK);
    // Below both caps they answer the same.
    let below = |rules: &str| output(&words(&format!("solve 10 100 95 1 call --limit 9 --steps --rules {rules}"))).1;
    let (original, textbook) = (below("0"), below("1"));
    let from = |text: &str| text.find("price  ").expect("a price");
    assert_eq!(original[from(&original)..], textbook[from(&textbook)..]);
}

/// The question names the rule set where it is not the original library's, and the steps are those under it.
#[test]
fn steps() {
    let (status, out, err) = output(&words(&format!("solve {STUDENT} --steps --rules 1 --limit 9")));
    assert_eq!((status, &*err), (0, ""));
    let question = "Asked for: the volatility of a Call at this price, with a limit of 9,\n\
                    under rule set 1: the textbook's caps\n\nprice       120.0 ";
    assert!(out.starts_with(question), "{out}");
    assert!(out.contains("\ntarget      0.1414213562373095        3FC21A1851FF630A\n\nstep  s "), "{out}");
    assert!(out.contains("\n2     1.0239178607411328  0.14142135623731003  5.27"), "{out}");
    assert!(out.lines().all(|line| line.chars().count() <= 80), "{out}");
    let (_, out, _) = output(&words(&format!("solve {STUDENT} --steps")));
    assert!(out.starts_with("Asked for: the volatility of a Call at this price, with a limit of 2\n\n"), "{out}");
    assert!(
        out.ends_with(&format!("\nNo step was completed: the answer comes without a loop.\n\n{ORIGINAL}")),
        "{out}"
    );
}

const RANGE: &str = "            low                                high
price       99.0                               120.0
----------  ---------------------------------  ------------------
volatility  -1.7976931348623157e308            1.0239178607411308
            FFEFFFFFFFFFFFFF                   3FF061F7B1DAC668
            no volatility is meant: the price
            is below the intrinsic value
branch      0, answered before a guess         2, lower middle
ending      0, no loop                         2, limit
steps       0                                  2
";

#[test]
fn range() {
    let range = "range 99 120 200 100 1 call";
    answers(&format!("{range} --rules 1"), RANGE);
    let (status, out, _) = output(&words(range));
    assert!(
        status == 0 && out.contains("\n            is below the intrinsic value       is at or above the maximum\n"),
        "{out}"
    );
    answers(&format!("{range} --rules 0"), &out);
    let (status, out, _) = output(&words(&format!("{range} --rules 1 --steps --limit 2147483647")));
    let question = "Asked for: the volatility of a Call at both prices, with a limit of 2147483647,\n\
                    under rule set 1: the textbook's caps\n\nlow price   99.0 ";
    assert!(status == 0 && out.starts_with(question), "{out}");
    assert!(out.contains("\nAt the high price, 120.0:\n\ntarget      0.1414213562373095  "), "{out}");
    assert!(out.lines().all(|line| line.chars().count() <= 80), "{out}");
}

/// The student's Call and one below both caps, filed under a rule set.
fn filed(path: &Path, rules: &str) -> Vec<u8> {
    let name = path.to_str().expect("text");
    for market in [STUDENT, "10 100 95 1 call"] {
        let line = [&["file", name][..], &words(market), &["--rules", rules]].concat();
        assert_eq!(output(&line).0, 0, "{line:?}");
    }
    fs::read(path).expect("a book")
}

const AGREES: &str = "records     2\nagree       2\ndiffer      0\nrefused     0\n";

const CROSSED: &str = "\
                          filed                       solved again
  volatility  1.0239178607411308          1.7976931348623157e308
              3FF061F7B1DAC668            7FEFFFFFFFFFFFFF
  steps       2                           0
  branch      2, lower middle             0, answered before a guess
  ending      2, limit                    0, no loop

records     2
agree       1
differ      1  (records 0)
refused     0
";

/// A book agrees under its own rule set. Under the other one the record between the caps differs, and it alone.
#[test]
fn file_and_recheck() {
    let paths = ["original", "textbook"].map(place);
    let [original, textbook] = paths.each_ref().map(|path| path.to_str().expect("text"));
    let books = [filed(&paths[0], "0"), filed(&paths[1], "1")];
    assert_ne!(books[0][..64], books[1][..64]);
    assert_eq!(books[0][64..], books[1][64..]);
    answers(&format!("recheck {original}"), AGREES);
    answers(&format!("recheck {original} --rules 0"), AGREES);
    answers(&format!("recheck --rules=1 {textbook} --jobs 1"), AGREES);
    let (status, out, err) = output(&words(&format!("recheck {textbook}")));
    assert_eq!((status, &*err), (1, ""));
    assert!(out.starts_with("record 0 differs: the volatility is ") && out.ends_with(CROSSED), "{out}");
    let (status, out, _) = output(&words(&format!("recheck {original} --rules 1")));
    assert!(status == 1 && out.contains("\n  volatility  1.7976931348623157e308      1.0239178607411308\n"), "{out}");
    assert_eq!(output_of(&words("recheck - --rules 1"), &books[1]), (0, AGREES.to_owned(), String::new()));
    // relist's lines have the original's rules, and show has what is filed.
    assert!(output(&words(&format!("list {textbook}"))).1.starts_with("0 7FEFFFFFFFFFFFFF 0 0 0\n"));
    assert!(output(&words(&format!("show {textbook} 0"))).1.contains("3FF061F7B1DAC668\nbranch      2, "));
}

const UNKNOWN: &str = "gintubalos: refused with 32: the rule set is unknown: there are 0 and 1\n";

/// An unknown rule set is told once and before all else: nothing is written, made or read.
#[test]
fn unknown() {
    let (missing, book) = (place("unknown_missing"), place("unknown"));
    let before = filed(&book, "1");
    let [missing_name, book_name] = [&missing, &book].map(|path| path.to_str().expect("text"));
    for rules in ["2", "7", "255", "256", "4294967295"] {
        for line in [
            &format!("solve {STUDENT}"),
            // What else would be refused, and not be read.
            "solve nan 0 0 0 put --steps",
            "range 99 120 200 100 1 call --steps",
            "range 2 1 0 0 0 put",
            &format!("file {missing_name} {STUDENT}"),
            &format!("file {missing_name} nan 0 0 0 put"),
            &format!("file {book_name} {STUDENT}"),
            &format!("recheck {book_name}"),
            &format!("recheck {book_name} {missing_name} {book_name}"),
            "recheck /nowhere/at/all",
            "recheck -",
        ] {
            let expected = (32, String::new(), UNKNOWN.to_owned());
            assert_eq!(output(&words(&format!("{line} --rules {rules}"))), expected, "{line}");
        }
    }
    assert!(!missing.exists());
    assert_eq!(fs::read(&book).expect("a book"), before);
}

/// A wrong command line is none, whatever the rule set.
#[test]
fn usage() {
    for (line, message) in [
        ("solve 1 1 1 1 put --rules", "--rules wants a number"),
        ("solve 1 1 1 1 put --rules one", "--rules: one is no rule set's number"),
        ("solve 1 1 1 1 put --rules -1", "--rules: -1 is no rule set's number"),
        ("solve 1 1 1 1 put --rules 1.0", "--rules: 1.0 is no rule set's number"),
        ("solve 1 1 1 1 put --rules=", "--rules:  is no rule set's number"),
        ("range 1 1 1 1 1 put --rules 4294967296", "--rules: 4294967296 is no rule set's number"),
        ("recheck /nowhere/at/all --rules textbook", "--rules: textbook is no rule set's number"),
        ("file /nowhere/at/all 1 1 1 1 put --rules 0x1", "--rules: 0x1 is no rule set's number"),
        ("solve 1 1 1 1 put 1 --rules 7", "1 is one word too many"),
        ("solve 1 1 1 1 put --rules 7 --jobs 1", "--jobs is not for this command"),
        // Commands that have none.
        ("black 1 1 1 1 put --rules 1", "--rules is not for this command"),
        ("file --repair book --rules 0", "--rules is not for this command"),
        ("list book --rules 0", "--rules is not for this command"),
        ("show book 0 --rules 7", "--rules is not for this command"),
        ("demo --rules 0", "--rules is not for this command"),
        ("--version --rules 0", "--rules is not for this command"),
    ] {
        let (status, out, err) = output(&words(line));
        assert_eq!((status, &*out), (64, ""), "{line}");
        assert!(err.starts_with(&format!("gintubalos: {message}")), "{err}");
        assert!(err.ends_with("; see gintubalos --help\n"), "{err}");
    }
}

#[test]
fn help() {
    for command in ["solve", "range", "file", "recheck"] {
        let (_, out, _) = output(&[command, "--help"]);
        assert!(out.contains(" [--rules N]"), "{out}");
        assert!(out.contains("   1  the textbook's caps: a Call is capped at the forward"), "{out}");
        assert!(out.contains("give recheck the one that the book was filed under"), "{out}");
        assert!(out.contains("  32  the rule set is unknown\n"), "{out}");
    }
    for command in ["demo", "black", "list", "show"] {
        assert!(!output(&[command, "--help"]).1.contains("[--rules N]"), "{command}");
    }
}
