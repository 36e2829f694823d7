//! The program, from its command line to its status.

mod common;

use common::{output, program, results, words};
use std::{fs::OpenOptions, process::Command};

/// Refused with 7 after three completed steps.
const SEVEN: [&str; 5] = ["0x3D35CFCCA2C33114", "0x41DBEC1184BBDFD4", "62DF5AB27B0C876F", "3f6f40223f5894a0", "call"];

const SOLUTION: &str = "\
volatility  0.18609337131054046       3FC7D1E857E3FCEB
branch      2, lower middle
ending      2, limit
steps       2
";

#[test]
fn solve() {
    assert_eq!(output(&words("solve 10 100 95 1 call")), (0, SOLUTION.to_owned(), String::new()));
    // In bits, with the limit first.
    let bits = "solve --limit=2 0x4024000000000000 4059000000000000 0x4057C00000000000 3ff0000000000000 CALL";
    assert_eq!(output(&words(bits)).1, SOLUTION);
    let (status, out, _) = output(&words("solve 10 100 95 1 call --limit 100"));
    assert_eq!(status, 0);
    assert!(out.contains("3FC7D1E857E3FCEC") && out.contains("1, step test") && out.contains("steps       3"));
    // P2, and a price below 0: a number and no option. What stands for no volatility is said in words.
    let below =
        "FFEFFFFFFFFFFFFF\n            no volatility is meant: the price is below the intrinsic value\nbranch      0, ";
    assert!(output(&words("solve 99 200 100 1 call")).1.contains(below));
    assert!(output(&words("solve -1 200 100 1 put --limit -5")).1.contains(below));
    // P1, P4 and P5, and P3, which has a volatility: 0.
    for line in ["solve 150 100 200 4 call", "solve 150 100 200 0.25 call", "solve 100 200 100 4 call"] {
        assert!(output(&words(line)).1.contains("no volatility is meant: the price is at or above the maximum\n"));
    }
    assert!(!output(&words("solve 0 100 200 1 call")).1.contains("no volatility"));
}

const TABLE: &str = "\
target      0.05129891760425771       3FAA43DA0ADC689A

step  s                    price b              error
      left                 right                vega
      s after
----  -------------------  -------------------  ---------------------
1     0.1859788921092648   0.05125514016701893  -4.377743723878169e-5
      0.1859788921092648   0.3202914122718575   0.3823972304882393
      0.1860933713105415
2     0.1860933713105415   0.0512989176042581   3.885780586188048e-16
      0.1859788921092648   0.1860933713105415   0.38241308317975137
      0.18609337131054046
";

const TABLE_WITH_BITS: &str = "\
1     0.1859788921092648   0.05125514016701893  -4.377743723878169e-5
      3FC7CE2805AD8475     3FAA3E1D1D89DA20     BF06F3B54A39E800
";

#[test]
fn steps() {
    let (status, out, err) = output(&words("solve 10 100 95 1 call --steps"));
    assert_eq!((status, &*err), (0, ""));
    assert!(out.starts_with("Asked for: the volatility of a Call at this price, with a limit of 2\n"));
    assert!(out.contains("price       10.0                      4024000000000000\n"));
    assert!(out.ends_with(&format!("{TABLE}\n{SOLUTION}")), "{out}");
    let (_, out, _) = output(&words("solve 10 100 95 1 call --steps --bits"));
    assert!(out.contains(TABLE_WITH_BITS), "{out}");
    assert!(out.lines().all(|line| line.chars().count() <= 80), "{out}");
    // A large limit costs no memory, and 1,000 rows are shown at most.
    let (status, out, _) = output(&words("solve 10 100 95 1 call --steps --limit 2147483647"));
    assert!(status == 0 && out.contains("\n3     0.18") && out.contains("step test"), "{out}");
    // Without a loop, and refused inside one: the completed steps are shown.
    assert!(output(&words("solve 0 100 95 1 put --steps"))
        .1
        .contains("No step was completed: the answer comes without a loop."));
    assert!(output(&words("solve 10 100 95 1 call --steps --limit 0")).1.contains("\n\nNo step was completed.\n"));
    let (status, out, err) = output(&[&["solve", "--steps", "--limit", "20"], &SEVEN[..]].concat());
    assert_eq!(status, 7);
    assert!(out.contains("\n3     ") && !out.contains("\n4     ") && !out.contains("volatility  "));
    assert!(err.contains("refused with 7") && err.contains("after 3 completed steps"), "{err}");
}

const RANGE: &str = "            low                 high
price       9.5                 10.5
----------  ------------------  -------------------
volatility  0.1726432079054715  0.19947800975489616
            3FC6192C31EA4EC4    3FC9887ED4158FB4
branch      2, lower middle     2, lower middle
ending      2, limit            2, limit
steps       2                   2
";

const BELOW: &str = "            low                                high
price       4.0                                10.0
----------  ---------------------------------  -------------------
volatility  -1.7976931348623157e308            0.18609337131054046
            FFEFFFFFFFFFFFFF                   3FC7D1E857E3FCEB
            no volatility is meant: the price
            is below the intrinsic value
branch      0, answered before a guess         2, lower middle
ending      0, no loop                         2, limit
steps       0                                  2
";

#[test]
fn range() {
    assert_eq!(output(&words("range 9.5 10.5 100 95 1 call")), (0, RANGE.to_owned(), String::new()));
    let bits = "range --limit=2 0x4023000000000000 4025000000000000 0x4059000000000000 95 3ff0000000000000 CALL";
    assert_eq!(output(&words(bits)).1, RANGE);
    assert_eq!(output(&words("range 4 10 100 95 1 call")), (0, BELOW.to_owned(), String::new()));
    // Below at one end and above at the other.
    let (_, out, _) = output(&words("range -1 150 100 200 0.25 call"));
    assert!(out.contains("\n            is below the intrinsic value       is at or above the maximum\n"), "{out}");
    assert!(out.lines().all(|line| line.chars().count() <= 80), "{out}");
    // Equal prices, and zeros, neither of which is above the other.
    for line in ["range 10 10 100 95 1 call", "range -0 0 100 200 1 call", "range 0 -0 100 200 1 call"] {
        assert_eq!(output(&words(line)).0, 0, "{line}");
    }
}

const HIGH_TABLE: &str = "\
At the high price, 10.5:

target      0.05642880936468348       3FACE43CA58C0CA9

step  s                    price b               error
      left                 right                 vega
      s after
----  -------------------  --------------------  ---------------------
1     0.19936837521193201  0.056386704439829904  -4.210492485357681e-5
      0.19936837521193201  0.3202914122718575    0.38404204453649526
      0.19947800975489674
2     0.19947800975489674  0.0564288093646837    2.220446049250313e-16
      0.19936837521193201  0.19947800975489674   0.38405391313437837
      0.19947800975489616
";

/// What solve shows of a price stands in range too, and the words' meaning once.
#[test]
fn steps_of_range() {
    let (status, out, err) = output(&words("range 9.5 10.5 100 95 1 call --steps"));
    assert_eq!((status, &*err), (0, ""));
    assert!(
        out.starts_with("Asked for: the volatility of a Call at both prices, with a limit of 2\n\nlow price   9.5 ")
    );
    assert!(out.ends_with(&format!("{HIGH_TABLE}\n{RANGE}")), "{out}");
    assert_eq!(out.matches("The loop seeks the s").count(), 1, "{out}");
    let solved = output(&words("solve 9.5 100 95 1 call --steps")).1;
    let (from, to) = (solved.find("target  ").expect("a target"), solved.find("volatility  ").expect("an answer"));
    assert!(out.contains(&format!("\nAt the low price, 9.5:\n\n{}At the high price", &solved[from..to])), "{out}");
    let (_, out, _) = output(&words("range 9.5 10.5 100 95 1 call --steps --bits --limit 2147483647"));
    assert!(out.contains("\n      3FC984E725B229F2     ") && out.contains("1, step test"), "{out}");
    assert!(out.lines().all(|line| line.chars().count() <= 80), "{out}");
    // One end without a loop, and both.
    let (_, out, _) = output(&words("range 4 10 100 95 1 call --steps"));
    assert!(out.contains("At the low price, 4.0:\n\nNo step was completed: the answer comes without a loop.\n"), "{out}");
    assert!(out.contains(TABLE) && out.ends_with(BELOW), "{out}");
    let (_, out, _) = output(&words("range -1 150 100 200 1 call --steps"));
    assert!(!out.contains("The loop seeks") && out.matches("without a loop").count() == 2, "{out}");
}

const REFUSED_END: &str = "            low                              high
price       8.167979824527822e25             1.7e26
----------  -------------------------------  ------------------
volatility  refused with 7: the asymptotic   0.5309055373352634
            expansion was asked for outside  3FE0FD2D9C03D932
            its region (after 2 completed
            steps)
branch      -                                1, lower loop
ending      -                                1, step test
steps       2                                3
";

/// A 7 at one end is told in its place, gives the status, and leaves the other end its answer.
#[test]
fn refused_end() {
    let (price, put) = ("4550E417AF0EEA91", "4E1F18AE9C139E20 4A096A1588E96C2D 404ABD6F03696393 put --limit 20");
    let of = |prices: String| output(&words(&format!("range {prices} {put}")));
    assert_eq!(of(format!("{price} 1.7e26")), (7, REFUSED_END.to_owned(), String::new()));
    let (status, out, err) = of(format!("4e25 {price}"));
    assert_eq!((status, &*err), (7, ""));
    assert!(
        out.contains(" refused with 7: the asymptotic\n") && out.ends_with("\nsteps       5                   2\n")
    );
    let (status, out, _) = of(format!("{price} {price}"));
    assert!(status == 7 && out.contains("\nbranch      -                                -\n"), "{out}");
    // Its completed steps are shown, with the other end's.
    let (status, out, err) = of(format!("{price} 1.7e26 --steps"));
    assert_eq!((status, &*err), (7, ""));
    assert_eq!((out.matches("\n2     ").count(), out.matches("\n3     ").count()), (2, 1), "{out}");
    assert!(out.ends_with(REFUSED_END), "{out}");
}

/// What refuses the whole call, in document 02's order.
#[test]
fn refusals_of_range() {
    for (line, number) in [
        ("range inf 1 0 0 0 put", 1),
        ("range 1 -inf 0 0 0 put", 1),
        ("range 1 nan 0 0 0 put", 1),
        ("range 2 1 0 0 0 put", 31),
        ("range 1 2 0 0 0 put", 2),
        ("range 1 2 1 -1 0 put", 3),
        ("range 1 2 1 1 0 put", 4),
    ] {
        let (status, out, err) = output(&words(line));
        assert_eq!((status, &*out), (number, ""), "{line}");
        assert!(err.starts_with(&format!("gintubalos: refused with {number}: the ")), "{err}");
        let (status, out, with_steps) = output(&[&words(line)[..], &["--steps"]].concat());
        assert!(status == number && with_steps == err && !out.contains("At the low price"), "{out}");
    }
}

#[test]
fn black() {
    let price = "price       10.519541063676972        40250A01494AD7E2\n";
    assert_eq!(output(&words("black 100 95 0.2 1 call")), (0, price.to_owned(), String::new()));
    for (line, number) in [
        ("black 0 0 nan 0 put", 2),
        ("black 1 -1 nan 0 put", 3),
        ("black 1 1 inf 0 put", 5),
        ("black 1 1 1 1e-310 put", 4),
        ("black 3F8C3B6B6A8EA2AE 40503C70C53DDB57 3FEA86987B35B0A6 1 call", 7),
    ] {
        let (status, out, err) = output(&words(line));
        assert_eq!((status, &*out), (number, ""));
        assert!(err.starts_with(&format!("gintubalos: refused with {number}: ")), "{err}");
    }
}

#[test]
fn refusals_of_solve() {
    for (line, number) in
        [("solve inf 0 0 0 put", 1), ("solve 1 0 0 0 put", 2), ("solve 1 1 -1 0 put", 3), ("solve 1 1 1 0 put", 4)]
    {
        assert_eq!(output(&words(line)).0, number);
        assert_eq!(output(&[&words(line)[..], &["--steps"]].concat()).0, number);
    }
}

#[test]
fn usage() {
    for line in [
        "",
        "price",
        "demo now",
        "--version now",
        "solve",
        "solve 1 1 1 1",
        "solve 1 1 1 1 straddle",
        "solve 1 1 1 1 put 1",
        "solve 1 1 1 one put",
        "solve 1 1 1 0x1 put",
        "solve 1 1 1 1 put --limit",
        "solve 1 1 1 1 put --limit 1.5",
        "solve 1 1 1 1 put --limit 2147483648",
        "solve 1 1 1 1 put --trail",
        "range",
        "range 1 1 1 1 put",
        "range 1 1 1 1 1",
        "range 1 1 1 1 1 straddle",
        "range 1 1 1 1 1 put 1",
        "range 1 one 1 1 1 put",
        "range 1 1 1 1 1 put --bits",
        "range 1 1 1 1 1 put --all",
        "range 1 1 1 1 1 put --limit",
        "black 1 1 1 1 put --limit 2",
        "file book 1 1 1 1 put --steps",
        "solve 1 1 1 1 put --bits",
        "solve 1 1 1 1 put --steps=2",
        "solve 1 1 1 1 -- put --limit 2",
        "file",
        "file - 10 100 95 1 call",
        "file --repair",
        "file --repair -",
        "file --repair book 1 1 1 1 put",
        "recheck",
        "recheck book --jobs 0",
        "recheck book --jobs",
        "recheck book --all=1",
        "list one two",
        "show book",
        "show book -1",
        "show book one",
        "show book 1 2",
        "board now",
    ] {
        let (status, out, err) = output(&words(line));
        assert_eq!((status, &*out), (64, ""), "{line}");
        assert!(err.starts_with("gintubalos: ") && err.ends_with("see gintubalos --help\n"), "{err}");
    }
    // Words without a letter.
    let wrong = [&[""][..], &["list", ""], &["recheck", "book", ""], &["solve", "", "1", "1", "1", "call"]];
    for line in wrong {
        assert_eq!(output(line).0, 64, "{line:?}");
    }
    // After -- every word is one, and of an option that is given twice the last counts.
    assert_eq!(output(&words("solve --limit 9 --limit 2 -- 10 100 95 1 call")).1, SOLUTION);
    for line in ["--help", "-h", "help", "solve --help", "range --help", "list --help", "file -h"] {
        let (status, out, err) = output(&words(line));
        assert_eq!((status, &*err), (0, ""));
        assert!(out.contains("0x3FF0000000000000") && out.contains("  24  the record's kind"), "{out}");
        assert!(out.contains("  31  the low price is above"), "{out}");
        assert!(out.contains("EXPIRY is in years") && out.lines().all(|line| line.chars().count() <= 104), "{out}");
    }
    // Of one command alone.
    let (_, out, _) = output(&words("list --help"));
    assert!(out.contains("gintubalos list BOOK") && out.contains("figures are solved again"), "{out}");
    assert!(!out.contains("gintubalos solve"), "{out}");
    assert!(!output(&words("demo --help")).1.contains("gintubalos solve"));
    let (_, out, _) = output(&words("range --help"));
    assert!(out.starts_with("  gintubalos range LOW HIGH FORWARD STRIKE EXPIRY call|put\n"), "{out}");
    assert!(out.contains("the prices between") && !out.contains("gintubalos black"), "{out}");
}

/// The bundled book agrees, and has branches 0 to 4 and every ending; then question six.
#[test]
fn demo() {
    let (status, out, err) = output(&["demo"]);
    assert_eq!((status, &*err), (0, ""));
    assert!(out.contains("\nrecords     14\nagree       14\ndiffer      0\nrefused     0\n"), "{out}");
    assert!(out.ends_with(&format!("{TABLE}\n{SOLUTION}")), "{out}");
    assert!(out.lines().all(|line| line.chars().count() <= 80), "{out}");
    let (records, part) = include_bytes!("../src/demo.book").as_chunks::<64>();
    assert!(part.is_empty());
    let seen = |byte: usize| records.iter().map(|record| record[byte]).collect::<std::collections::BTreeSet<_>>();
    assert_eq!((seen(49), seen(50)), ((0..=4).collect(), (0..=2).collect()));
}

#[test]
fn version() {
    let (status, out, err) = output(&["--version"]);
    assert_eq!((status, &*err), (0, ""));
    let lines: Vec<&str> = out.lines().collect();
    assert_eq!(lines[0], format!("gintubalos {}", env!("CARGO_PKG_VERSION")));
    assert!(lines[1].starts_with("commit   ") && lines[2].starts_with("kit      "), "{out}");
    assert_eq!(lines[3].strip_prefix("archive  sha256 ").map(str::len), Some(64), "{out}");
}

/// An output that can't be written is told, whatever was to be written there.
#[test]
fn full_output() {
    for line in [
        "demo",
        "--help",
        "--version",
        "solve 10 100 95 1 call --steps",
        "range 9.5 10.5 100 95 1 call",
        "black 100 95 0.2 1 call",
    ] {
        let full = OpenOptions::new().write(true).open("/dev/full").expect("a device of Linux");
        let (status, _, err) = results(program().args(words(line)).stdout(full).output().expect("the program starts"));
        assert!(status == 74 && err.starts_with("gintubalos: standard output: "), "{line}: {err}");
    }
}

/// An output that is open for reading alone, and an input for writing alone.
#[test]
fn wrong_ends() {
    let null = |options: &mut OpenOptions| options.open("/dev/null").expect("a device of Linux");
    let fails = |command: &mut Command, name: &str| {
        let (status, _, err) = results(command.output().expect("the program starts"));
        assert!(status == 74 && err.starts_with(&format!("gintubalos: standard {name}: ")), "{command:?}: {err}");
    };
    fails(program().args(words("black 100 95 0.2 1 call")).stdout(null(OpenOptions::new().read(true))), "output");
    for line in ["list -", "recheck -", "show - 0"] {
        fails(program().args(words(line)).stdin(null(OpenOptions::new().write(true))), "input");
    }
}
