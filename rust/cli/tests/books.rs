//! The program's books: filing, rechecking, listing and showing, alone and side by side, and what goes wrong there.

mod common;

use common::{output, output_of, place, program, record, results};
use std::{
    collections::BTreeSet,
    fs, io,
    path::Path,
    process::{Child, Command, Stdio},
    thread,
    time::Duration,
};

/// Refused with 7 after three completed steps.
const SEVEN: [&str; 5] = ["0x3D35CFCCA2C33114", "0x41DBEC1184BBDFD4", "62DF5AB27B0C876F", "3f6f40223f5894a0", "call"];

const SOLUTION: &str = "\
volatility  0.18609337131054046       3FC7D1E857E3FCEB
branch      2, lower middle
ending      2, limit
steps       2
";

fn name(path: &Path) -> &str {
    path.to_str().expect("text")
}

#[test]
fn file_recheck_list() {
    let path = place("book");
    let name = path.to_str().expect("text");
    // What is refused makes no file.
    assert_eq!(output(&["file", name, "1", "0", "95", "1", "put"]).0, 2);
    assert_eq!(output(&[&["file", name, "--limit", "20"], &SEVEN[..]].concat()).0, 7);
    assert!(!path.exists());
    assert_eq!(output(&["file", name, "10", "100", "95", "1", "call"]).1, format!("record      0\n{SOLUTION}"));
    let (status, out, _) = output(&["file", name, "1", "100", "95", "1", "put", "--limit", "9"]);
    assert!(status == 0 && out.starts_with("record      1\n"));
    let mut book = fs::read(&path).expect("a book");
    assert_eq!((book.len(), book[40], book[64 + 40]), (128, 2, 9));
    assert_eq!(
        output(&["recheck", name]),
        (0, "records     2\nagree       2\ndiffer      0\nrefused     0\n".to_owned(), String::new())
    );
    let lines = output(&["list", name]).1;
    assert!(lines.starts_with("0 3FC7D1E857E3FCEB 2 2 2\n1 ") && lines.lines().count() == 2);

    // A refusal, then a difference beside it, then a part at the end, which no record can follow.
    book.extend(record([1.0, 1.0, 1.0, 0.0], 2, 1));
    book.extend(record([1.0, 1.0, 1.0, 0.0], 2, 3));
    fs::write(&path, &book).expect("written");
    let (status, out, _) = output(&["recheck", name]);
    assert_eq!(status, 2);
    assert!(out.contains("\nrefused     2\n  with 4    1  (the first is record 2): the expiry is not"), "{out}");
    assert!(out.contains("\n  with 24   1  (the first is record 3): the record's kind"), "{out}");
    book[64 + 32] ^= 1;
    book.extend([0; 63]);
    fs::write(&path, &book).expect("written");
    let (status, out, _) = output(&["recheck", name]);
    assert_eq!(status, 1);
    assert!(out.starts_with("record 1 differs: the volatility is 1 float apart\n"), "{out}");
    assert!(out.contains("\n\nrecords     5\nagree       1\ndiffer      1  (records 1)\nrefused     3\n"), "{out}");
    assert!(out.contains("with 23   1  (the first is record 4): the file ends in a part under 64 bytes"), "{out}");
    let (status, out, _) = output(&["list", name]);
    assert!(status == 0 && out.ends_with("\n2 REF 4\n3 REF 24\n4 REF 23\n"), "{out}");
    let (status, _, err) = output(&["file", name, "10", "100", "95", "1", "call"]);
    assert!(status == 23 && err.contains("ends in a part of 63 bytes, which file --repair "), "{err}");
    assert_eq!(output(&["file", name, "10", "100", "95", "0", "call"]).0, 4);
    assert_eq!(fs::read(&path).expect("a book"), book);
}

/// Document 01's three records, and a book without any.
#[test]
fn listing_of_document_01() {
    let path = place("three");
    let rows = [[150.0, 100.0, 200.0, 4.0], [99.0, 200.0, 100.0, 1.0], [0.0, 100.0, 200.0, 1.0]];
    fs::write(&path, rows.map(|row| record(row, 2, 1)).concat()).expect("written");
    let name = path.to_str().expect("text");
    let lines = "0 7FDFFFFFFFFFFFFF 0 0 0\n1 FFEFFFFFFFFFFFFF 0 0 0\n2 0000000000000000 0 0 0\n";
    assert_eq!(output(&["list", name]), (0, lines.to_owned(), String::new()));
    // Their volatilities are not filed but 0: the third is right.
    let (status, out, _) = output(&["recheck", name]);
    assert_eq!(status, 1);
    assert!(out.contains("agree       1\ndiffer      2  (records 0, 1)\n"), "{out}");
    fs::write(&path, []).expect("written");
    assert_eq!(output(&["list", name]), (0, String::new(), String::new()));
    assert_eq!(output(&["recheck", name]).0, 0);
}

/// Ten differing records are named, and no more.
#[test]
fn many_differ() {
    let path = place("many");
    let one = record([10.0, 100.0, 95.0, 1.0], 2, 1);
    fs::write(&path, one.repeat(1000)).expect("written");
    let (status, out, err) = output(&["recheck", path.to_str().expect("text")]);
    // Standard error is no terminal here, so there is no bar.
    assert_eq!((status, &*err), (1, ""));
    assert!(out.contains("differ      1000  (records 0, 1, 2, 3, 4, 5, 6, 7, 8, 9, ..)\n"), "{out}");
}

/// A book of some records whose filed answers are right.
fn filed(path: &Path, count: usize) -> Vec<u8> {
    for i in 0..count {
        assert_eq!(output(&["file", name(path), &format!("{}", 6 + i % 9), "100", "95", "1", "call"]).0, 0);
    }
    fs::read(path).expect("a book")
}

fn start_filing(path: &Path, price: &str) -> Child {
    let words = ["file", name(path), price, "100", "95", "1", "call"];
    let piped = Stdio::piped;
    program().args(words).stdout(piped()).stderr(piped()).spawn().expect("the program starts")
}

/// Fifty programs file at once: each has a number of its own, and every record is whole.
#[test]
fn parallel() {
    let path = place("parallel");
    let children: Vec<Child> = (0..50).map(|i| start_filing(&path, &format!("{}", 6 + i % 9))).collect();
    let mut numbers = BTreeSet::new();
    for child in children {
        let (status, out, err) = results(child.wait_with_output().expect("the program ends"));
        assert_eq!(status, 0, "{err}");
        let number = out.lines().next().and_then(|line| line.strip_prefix("record      ")).expect("a number");
        assert!(numbers.insert(number.parse::<u64>().expect("a number")), "{number} twice");
    }
    assert_eq!(numbers, (0..50).collect());
    assert_eq!(fs::metadata(&path).expect("a book").len(), 50 * 64);
    assert!(output(&["recheck", name(&path)]).1.starts_with("records     50\nagree       50\n"));
}

/// A program that is killed leaves whole records, and what was acknowledged is there.
#[test]
fn killed() {
    let path = place("killed");
    let mut acknowledged = 0;
    for i in 0..60 {
        let mut child = start_filing(&path, "10");
        thread::sleep(Duration::from_micros(100 * (i % 30)));
        let _ = child.kill();
        let output = child.wait_with_output().expect("the program ends");
        acknowledged += u64::from(output.status.success());
    }
    let bytes = fs::metadata(&path).map_or(0, |metadata| metadata.len());
    assert!(bytes.is_multiple_of(64) && bytes / 64 >= acknowledged, "{bytes} bytes, {acknowledged} acknowledged");
    filed(&path, 1);
    assert_eq!(output(&["recheck", name(&path)]).0, 0);
}

/// A program that can write files of so many bytes and no more.
fn limited(bytes: u64, words: &[&str]) -> (i32, String, String) {
    let program = env!("CARGO_BIN_EXE_gintubalos");
    let command = format!("trap '' XFSZ; exec prlimit --fsize={bytes} \"$@\"");
    let output = Command::new("bash").args(["-c", &command, "bash", program]).args(words).output();
    results(output.expect("bash starts"))
}

/// A write that fails, in part or whole, loses nothing and leaves no part.
#[test]
fn full_disk() {
    let path = place("full");
    let words = ["file", name(&path), "10", "100", "95", "1", "call"];
    let book = filed(&path, 2);
    for bytes in [128, 129, 150, 191] {
        let (status, out, err) = limited(bytes, &words);
        assert_eq!((status, &*out), (74, ""), "{err}");
        assert!(err.starts_with(&format!("gintubalos: {}: ", name(&path))), "{err}");
        assert_eq!(fs::read(&path).expect("a book"), book);
    }
    assert!(output(&words).1.starts_with("record      2\n"));
    assert_eq!(output(&["recheck", name(&path)]).0, 0);
    let (status, _, err) = output(&["file", "/dev/full", "10", "100", "95", "1", "call"]);
    assert!(status == 74 && err.starts_with("gintubalos: /dev/full: "), "{err}");
}

/// A part at the end is named, and taken away only when asked for; its bytes are shown.
#[test]
fn repair() {
    let path = place("repair");
    let book = filed(&path, 2);
    fs::write(&path, [&book[..], &[1, 2, 0xAB]].concat()).expect("written");
    assert_eq!(output(&["file", name(&path), "10", "100", "95", "1", "call"]).0, 23);
    let (status, out, _) = output(&["file", "--repair", name(&path)]);
    assert!(status == 0 && out.contains("a part of 3 bytes is taken away, which leaves 2 whole records\n"), "{out}");
    assert!(out.ends_with("\nits bytes   0102AB\n"), "{out}");
    assert_eq!(fs::read(&path).expect("a book"), book);
    let (status, out, _) = output(&["file", "--repair", name(&path)]);
    assert!(status == 0 && out.ends_with(" has 2 whole records and no part at its end\n"), "{out}");
    assert_eq!(fs::read(&path).expect("a book"), book);
    fs::write(&path, &book[..65]).expect("written");
    let (_, out, _) = output(&["file", "--repair", name(&path)]);
    assert!(out.contains(": a part of 1 byte is taken away, which leaves 1 whole record\n"), "{out}");
    let nothing = place("nothing");
    let (status, _, err) = output(&["file", "--repair", name(&nothing)]);
    assert_eq!((status, err), (74, format!("gintubalos: {}: there is no such file\n", name(&nothing))));
    assert!(!nothing.exists());
    assert_eq!(output(&["file", "--repair", env!("CARGO_TARGET_TMPDIR")]).0, 74);
}

/// What is done to a book is told on standard error where standard output is full, or where nobody reads it.
#[test]
fn unshown() {
    let path = place("unshown");
    let name = name(&path);
    let file = ["file", name, "10", "100", "95", "1", "call"];
    let full = || fs::OpenOptions::new().write(true).open("/dev/full").expect("a device of Linux");
    let unread = || io::pipe().expect("a pipe").1;
    for (k, out) in [(0, Stdio::from(full())), (1, unread().into())] {
        let (status, _, err) = results(program().args(file).stdout(out).output().expect("the program starts"));
        assert!(status == 74 && err.starts_with("gintubalos: standard output: "), "{err}");
        assert!(err.ends_with(&format!("; but record {k} of {name} is filed: do not file it again\n")), "{err}");
        assert_eq!(fs::read(&path).expect("a book").len(), 64 * (k + 1));
    }
    let book = fs::read(&path).expect("a book");
    fs::write(&path, [&book[..], &[1, 2, 0xAB]].concat()).expect("written");
    let repaired = program().args(["file", "--repair", name]).stdout(full()).output();
    let (status, _, err) = results(repaired.expect("the program starts"));
    assert!(status == 74 && err.ends_with("which leaves 2 whole records; its bytes: 0102AB\n"), "{err}");
    assert_eq!(fs::read(&path).expect("a book"), book);
}

/// A reader has the book together with other readers, and keeps those who add waiting.
#[test]
fn locks() {
    let path = place("locked");
    filed(&path, 1);
    let book = fs::File::open(&path).expect("a book");
    book.lock_shared().expect("a lock");
    assert_eq!(output(&["recheck", name(&path)]).0, 0);
    assert_eq!(output(&["show", name(&path), "0"]).0, 0);
    let mut child = start_filing(&path, "10");
    thread::sleep(Duration::from_millis(300));
    assert!(child.try_wait().expect("a state").is_none(), "it did not wait");
    book.unlock().expect("unlocked");
    let (status, out, err) = results(child.wait_with_output().expect("the program ends"));
    assert!(status == 0 && out.starts_with("record      1\n"), "{err}");
    assert!(err.contains("waiting for another program"), "{err}");
}

/// A volatility that stands for none is warned of.
#[test]
fn sentinels() {
    let path = place("sentinels");
    let (status, out, err) = output(&["file", name(&path), "99", "200", "100", "1", "call"]);
    assert!(status == 0 && out.contains("no volatility is meant: the price is below the intrinsic value\n"), "{out}");
    assert_eq!(err, "gintubalos: warning: record 0 has no volatility: the price is below the intrinsic value\n");
    assert_eq!(output(&["recheck", name(&path)]).0, 0);
}

#[test]
fn show() {
    let path = place("show");
    let mut book = filed(&path, 1);
    let shown = "\
record      0, as it is filed
price       6.0                       4018000000000000
forward     100.0                     4059000000000000
strike      95.0                      4057C00000000000
expiry      1.0                       3FF0000000000000
kind        1, Call
limit       2
";
    let (status, out, _) = output(&["show", name(&path), "0"]);
    assert!(status == 0 && out.starts_with(shown), "{out}");
    // It is shown as it is, whatever it is.
    (book[48], book[49], book[63]) = (7, 6, 1);
    book.extend([0; 10]);
    fs::write(&path, &book).expect("written");
    let (status, out, _) = output(&["show", name(&path), "0"]);
    assert!(status == 0 && out.contains("kind        7, outside the layout\n"), "{out}");
    assert!(out.contains("branch      6, outside the layout\n"), "{out}");
    assert!(out.ends_with("spare bytes 00000000000000000000000001, outside the layout\n"), "{out}");
    for k in ["1", "2", "18446744073709551615"] {
        let (status, out, err) = output(&["show", name(&path), k]);
        assert_eq!((status, &*out), (23, ""));
        assert!(err.ends_with(&format!("has no whole record {k}\n")), "{err}");
        let (status, _, err) = output_of(&["show", "-", k], &book);
        assert!(status == 23 && err.ends_with(&format!(": standard input has no whole record {k}\n")), "{err}");
    }
    let second = [&[0; 64], &book[..64]].concat();
    assert_eq!(output_of(&["show", "-", "1"], &second).1, out.replacen("record      0", "record      1", 1));
}

/// The same words from one thread and from many, and from standard input.
#[test]
fn jobs() {
    let path = place("jobs");
    let one = filed(&path, 1);
    let mut book = one.repeat(3000);
    for k in [0, 5, 255, 256, 700, 701, 1500, 2047, 2048, 2500, 2600, 2999] {
        book[64 * k + 32] ^= 1 + (k % 7) as u8;
    }
    book[64 * 1000 + 24..64 * 1000 + 32].fill(0);
    book.extend([0; 20]);
    fs::write(&path, &book).expect("written");
    let first = output(&["recheck", name(&path), "--jobs", "1"]);
    assert_eq!((first.0, &*first.2), (1, ""));
    assert!(first.1.contains("records     3001\nagree       2987\ndiffer      12  (records 0, 5, 255, 256, 700, 701, 1500, 2047, 2048, 2500, ..)\n"), "{}", first.1);
    assert_eq!(first.1.matches(" differs: ").count(), 10);
    for jobs in ["2", "3", "16", "18446744073709551615"] {
        assert_eq!(output(&["recheck", "--jobs", jobs, name(&path)]), first);
    }
    assert_eq!(output(&["recheck", name(&path)]), first);
    assert_eq!(output_of(&["recheck", "-"], &book), first);
    assert_eq!(output(&["recheck", "--all", name(&path)]).1.matches(" differs: ").count(), 12);
    assert_eq!(output_of(&["list", "-"], &book), output(&["list", name(&path)]));
}

/// Several books, one of which can't be read: the others are rechecked all the same.
#[test]
fn several_books() {
    let (a, b) = (place("several_a"), place("several_b"));
    let one = filed(&a, 1);
    fs::write(&b, [&one[..], &[0]].concat()).expect("written");
    let (status, out, err) = output(&["recheck", name(&a), name(&b)]);
    assert_eq!((status, &*err), (2, ""));
    assert!(out.starts_with(&format!("{}:\nrecords     1\n", name(&a))), "{out}");
    assert!(out.contains(&format!("\n{}:\nrecords     2\n", name(&b))), "{out}");
    let (status, out, err) = output(&["recheck", name(&a), "/nowhere/at/all", name(&b)]);
    assert!(status == 74 && out.contains("records     2\n") && err.contains("/nowhere/at/all"), "{err}");
}

#[test]
fn no_file() {
    let path = place("missing");
    for command in ["recheck", "list"] {
        let (status, out, err) = output(&[command, path.to_str().expect("text")]);
        assert_eq!((status, &*out), (74, ""));
        assert!(err.contains("missing"), "{err}");
    }
    let folder = env!("CARGO_TARGET_TMPDIR");
    for line in [&["list", folder][..], &["recheck", folder], &["file", folder, "10", "100", "95", "1", "call"]] {
        assert_eq!(output(line).0, 74);
    }
}
