//! `sqrt`: the root, and with --steps each turn, whose numbers are read back and reckoned again in whole numbers.

mod common;

use common::{output, program, results, words};
use std::fs::OpenOptions;

/// The root as it is shown.
fn root(decimal: &str, bits: &str) -> String {
    format!("root        {decimal:<24}  {bits}\n")
}

/// All that a root is answered with.
fn answer(line: &str, expected: &str) {
    assert_eq!(output(&words(line)), (0, expected.to_owned(), String::new()), "{line}");
}

#[test]
fn roots() {
    for (x, decimal, bits) in [
        ("2", "1.4142135623730951", "3FF6A09E667F3BCD"),
        ("0x4000000000000000", "1.4142135623730951", "3FF6A09E667F3BCD"),
        ("4000000000000000", "1.4142135623730951", "3FF6A09E667F3BCD"),
        ("4", "2.0", "4000000000000000"),
        ("2.25", "1.5", "3FF8000000000000"),
        ("1e-3", "0.03162277660168379", "3FA030DC4EA03A72"),
        ("5e-324", "2.2227587494850775e-162", "1E60000000000000"),
        ("1.7976931348623157e308", "1.3407807929942596e154", "5FEFFFFFFFFFFFFF"),
        ("inf", "inf", "7FF0000000000000"),
        ("0", "0.0", "0000000000000000"),
        ("-0", "-0.0", "8000000000000000"),
        ("-1", "NaN", "7FF8000000000000"),
        ("-5e-324", "NaN", "7FF8000000000000"),
        ("-inf", "NaN", "7FF8000000000000"),
        ("nan", "NaN", "7FF8000000000000"),
        ("FFF0000000000001", "NaN", "7FF8000000000000"),
    ] {
        answer(&format!("sqrt {x}"), &root(decimal, bits));
    }
}

/// Neither positive nor finite: there is no significand.
#[test]
fn no_digits() {
    for (x, decimal, bits) in [
        ("0", "0.0", "0000000000000000"),
        ("-0", "-0.0", "8000000000000000"),
        ("-1", "NaN", "7FF8000000000000"),
        ("-5e-324", "NaN", "7FF8000000000000"),
        ("nan", "NaN", "7FF8000000000000"),
        ("inf", "inf", "7FF0000000000000"),
        ("-inf", "NaN", "7FF8000000000000"),
    ] {
        let words = "No digits are looked for: X is not positive and finite.\n\n";
        answer(&format!("sqrt {x} --steps"), &[words, &root(decimal, bits)].concat());
    }
}

const BEGINNING: &str = "\
Asked for: the square root of X, by one binary digit per turn

X           2.0                       4000000000000000
significand 2.0                      10.0
exponent    0

X is significand x 2^exponent. ";

const TURNS: &str = "
turn 1      decimal                   binary
candidate   1.0                       1
its square  1.0                       1
significand 2.0                      10.0
digit       1                         its square is not above the significand
digits      1.0                       1
square      1.0                       1
left        1.0                       1.0

turn 2      decimal                   binary
candidate   1.5                       1.1
its square  2.25                     10.01
significand 2.0                      10.0
digit       0                         its square is above the significand
digits      1.0                       1.0
square      1.0                       1.00
left        1.0                       1.00

turn 3      decimal                   binary
candidate   1.25                      1.01
its square  1.5625                    1.1001
significand 2.0                      10.0
digit       1                         its square is not above the significand
digits      1.25                      1.01
square      1.5625                    1.1001
left        0.4375                    0.0111
";

const LAST_TURN: &str = "
turn 53     decimal                   binary
candidate   1.41421356237309514547..  1.0110101000001001111001100110011111110011
                                        101111001101
its square  2.00000000000000027343.. 10.0000000000000000000000000000000000000000
                                        0000000000010011101100111110111110111111
                                        010111100010001000101001
significand 2.0                      10.0
digit       0                         its square is above the significand
digits      1.41421356237309492343..  1.0110101000001001111001100110011111110011
                                        101111001100
square      1.99999999999999964539..  1.1111111111111111111111111111111111111111
                                        1111111111100110011100101011001011110010
                                        010111111010101010010000
left        0.00000000000000035460..  0.0000000000000000000000000000000000000000
                                        0000000000011001100011010100110100001101
                                        101000000101010101110000

All turns, a row each: the turn and its digit, and in decimal the digits so far,
their square, and what is left:
     digits                   square                   left
 1 1 1.0                      1.0                      1.0
 2 0 1.0                      1.0                      1.0
 3 1 1.25                     1.5625                   0.4375
 4 1 1.375                    1.890625                 0.109375
";

const LAST_ROW: &str = "
53 0 1.41421356237309492343.. 1.99999999999999964539.. 0.00000000000000035460..

The significand's root is these 53 digits, or ";

const ENDING: &str = "
rounding    decimal                   binary
left x 2^52 1.59699731180930015739..  1.1001100011010100110100001101101000000101
                                        010101110000
digits      1.41421356237309492343..  1.0110101000001001111001100110011111110011
                                        101111001100
rounded     up                        left x 2^52 is above digits
result      1.41421356237309514547..  1.0110101000001001111001100110011111110011
                                        101111001101

The root of X is the result x 2^(exponent / 2), here x 2^0:

root        1.4142135623730951        3FF6A09E667F3BCD
";

#[test]
fn steps() {
    let (status, out, err) = output(&words("sqrt 2 --steps"));
    assert_eq!((status, &*err), (0, ""));
    assert!(out.starts_with(BEGINNING) && out.contains(TURNS) && out.contains(LAST_TURN), "{out}");
    assert!(out.contains(LAST_ROW), "{out}");
    assert!(out.ends_with(ENDING), "{out}");
    assert_eq!(out.matches("\nturn ").count(), 53);
    // The option first, and X's bits.
    answer("sqrt --steps -- 0x4000000000000000", &out);
}

/// The places of a number of 53 binary digits, and those of its square.
const PLACES: usize = 52;
const UNIT_PLACES: usize = 104;

/// A line of the table, with those that go on with its binary places.
struct Row<'a> {
    name: &'a str,
    decimal: &'a str,
    binary: String,
}

fn rows(paragraph: &str) -> Vec<Row<'_>> {
    let mut rows: Vec<Row> = Vec::new();
    for line in paragraph.lines() {
        let (name, rest) = line.split_at(12);
        match rows.last_mut() {
            Some(row) if name.trim().is_empty() => {
                assert!(line.starts_with(&" ".repeat(40)), "{line}");
                row.binary += line.trim_start();
            }
            _ => {
                let (decimal, binary) = rest.split_at(rest.len().min(25));
                let [name, decimal] = [name, decimal].map(str::trim_end);
                rows.push(Row { name, decimal, binary: binary.trim_start().to_owned() });
            }
        }
    }
    rows
}

/// A binary number: its digits as a whole number, and how many of them stand behind the point.
#[derive(Clone, Copy, Debug, PartialEq)]
struct Number {
    digits: u128,
    places: usize,
}

impl Number {
    /// In units of 2^-104.
    fn units(self) -> u128 {
        self.digits << (UNIT_PLACES - self.places)
    }

    fn square(self) -> Number {
        Number { digits: self.digits * self.digits, places: 2 * self.places }
    }

    /// With one digit more, the first of which stands before the point.
    fn and(self, digit: u128) -> Number {
        Number { digits: 2 * self.digits + digit, places: self.places + usize::from(self.digits > 0) }
    }

    /// Twenty decimal places, with a mark where it has more, or as many as it has.
    fn decimal(self) -> String {
        let (scale, half) = (10u128.pow(20), 1 << 52);
        let [high, low] = [self.units() / half, self.units() % half].map(|part| part * scale);
        let high = high + low / half;
        let text = format!("{}.{:020}", high / half / scale, high / half % scale);
        if high % half > 0 || low % half > 0 {
            return text + "..";
        }
        let trimmed = text.trim_end_matches('0');
        // One place at least.
        format!("{trimmed}{}", if trimmed.ends_with('.') { "0" } else { "" })
    }
}

impl Row<'_> {
    fn says(&self, name: &str, decimal: &str, binary: &str) {
        assert_eq!((self.name, self.decimal, &*self.binary), (name, decimal, binary));
    }

    /// The number, which is the same in decimal.
    fn number(&self, name: &str) -> Number {
        let (whole, places) = self.binary.split_once('.').unwrap_or((&self.binary, ""));
        let digits = u128::from_str_radix(&[whole, places].concat(), 2).expect("binary digits");
        let number = Number { digits, places: places.len() };
        assert_eq!((self.name, self.decimal), (name, &*number.decimal()));
        number
    }

    /// A float in decimal and in bits.
    fn float(&self, name: &str) -> f64 {
        let x = f64::from_bits(u64::from_str_radix(&self.binary, 16).expect("bits"));
        assert_eq!((self.name, self.decimal), (name, &*format!("{x:?}")));
        x
    }
}

/// Checks a turn, and answers the digits after it.
fn check_turn(paragraph: &str, turn: usize, before: Number, significand: Number) -> Number {
    let rows = rows(paragraph);
    let [heads, candidate, its_square, again, decision, digits, square, left] = &rows[..] else {
        panic!("{paragraph}")
    };
    heads.says(&format!("turn {turn}"), "decimal", "binary");
    let with_one = before.and(1);
    assert_eq!((candidate.number("candidate"), its_square.number("its square")), (with_one, with_one.square()));
    assert_eq!(again.number("significand"), significand);
    let (digit, above) = if with_one.square().units() > significand.units() { (0, "above") } else { (1, "not above") };
    decision.says("digit", &digit.to_string(), &format!("its square is {above} the significand"));
    let after = before.and(digit);
    assert_eq!((digits.number("digits"), square.number("square")), (after, after.square()));
    let left = left.number("left");
    assert_eq!(left.units(), significand.units() - after.square().units());
    assert_eq!((left.places, after.places), (significand.places.max(2 * after.places), turn - 1));
    after
}

/// Checks each turn's row against what the turn itself shows in decimal.
fn check_overview(paragraph: &str, turns: &[&str]) {
    let lines: Vec<&str> = paragraph.lines().skip(3).collect();
    assert_eq!(lines.len(), turns.len());
    for ((line, paragraph), turn) in lines.iter().zip(turns).zip(1..) {
        let rows = rows(paragraph);
        let [.., decision, digits, square, left] = &rows[..] else { panic!("{paragraph}") };
        let shown = [decision, digits, square, left].map(|row| row.decimal);
        assert_eq!(line.split_whitespace().collect::<Vec<_>>(), [&[&*turn.to_string()], &shown[..]].concat());
    }
}

/// Checks what is left against the digits, and answers the significand's root, rounded.
fn check_rounding(paragraph: &str, digits: Number, significand: Number) -> Number {
    let rows = rows(paragraph);
    let [heads, enlarged, again, decision, result] = &rows[..] else { panic!("{paragraph}") };
    heads.says("rounding", "decimal", "binary");
    // Units of 2^-104, and 2^52 times as much.
    let left = significand.units() - digits.square().units();
    assert_eq!(enlarged.number("left x 2^52"), Number { digits: left, places: PLACES });
    assert_eq!(again.number("digits"), digits);
    let (way, why) = match left {
        0 => ("not", "nothing is left: the root is these digits"),
        left if left > digits.digits => ("up", "left x 2^52 is above digits"),
        _ => ("down", "left x 2^52 is not above digits"),
    };
    decision.says("rounded", way, why);
    let rounded = Number { digits: digits.digits + u128::from(way == "up"), places: PLACES };
    assert_eq!(result.number("result"), rounded);
    rounded
}

/// A number times two powers of 2, which are less far from 1 than their product.
fn times(number: Number, powers: [i32; 2]) -> u64 {
    let digits = (number.digits << (PLACES - number.places)) as f64 / 2f64.powi(52);
    powers.into_iter().fold(digits, |x, power| x * 2f64.powi(power)).to_bits()
}

/// Every line's width, and all that is shown from X to its root.
fn check(word: &str) {
    let (status, out, err) = output(&["sqrt", word, "--steps"]);
    assert_eq!((status, &*err), (0, ""), "{word}");
    assert!(out.lines().all(|line| line.chars().count() <= 80 && line == line.trim_end()), "{out}");
    let paragraphs: Vec<&str> = out.split("\n\n").collect();
    let [_, figures, _, _, turns @ .., overview, _, rounding, sentence, last] = &paragraphs[..] else {
        panic!("{out}")
    };
    let figures = rows(figures);
    let [x, significand, exponent] = &figures[..] else { panic!("{out}") };
    let (x, significand) = (x.float("X"), significand.number("significand"));
    let half = exponent.decimal.parse::<i32>().expect("a whole number") / 2;
    exponent.says("exponent", &(2 * half).to_string(), "");
    assert!((1..4).contains(&(significand.units() >> UNIT_PLACES)) && significand.places > 0, "{out}");
    assert_eq!(times(significand, [half, half]), x.to_bits());
    assert_eq!(turns.len(), 53);
    let none = Number { digits: 0, places: 0 };
    let digits = (1..).zip(turns).fold(none, |before, (turn, rows)| check_turn(rows, turn, before, significand));
    check_overview(overview, turns);
    let rounded = check_rounding(rounding, digits, significand);
    assert_eq!(*sentence, format!("The root of X is the result x 2^(exponent / 2), here x 2^{half}:"));
    let root = x.sqrt();
    assert_eq!(times(rounded, [half, 0]), root.to_bits());
    assert_eq!(rows(last)[0].float("root").to_bits(), root.to_bits());
    answer(&format!("sqrt {word}"), last);
}

/// Rounded up, down and not at all; exact squares; subnormal numbers; the ends of the format.
#[test]
fn every_turn() {
    for word in [
        "1",
        "2",
        "3",
        "4",
        "8",
        "0.1",
        "0.25",
        "0.3",
        "7.3",
        "1e-3",
        "123456787654321",
        "5e-324",
        "1e-323",
        "1e-310",
        "0x000FFFFFFFFFFFFF",
        "0x0010000000000000",
        "0x3FEFFFFFFFFFFFFF",
        "0x3FF0000000000001",
        "0x400FFFFFFFFFFFFF",
        "0x7FEFFFFFFFFFFFFF",
    ] {
        check(word);
    }
    let way = |x: &str| {
        let (_, out, _) = output(&["sqrt", x, "--steps"]);
        let (_, rest) = out.split_once("\nrounded     ").expect("a way");
        rest.split_whitespace().next().map(str::to_owned)
    };
    assert_eq!(["2", "3", "4"].map(way).map(Option::unwrap), ["up", "down", "not"]);
}

#[test]
fn usage() {
    for (line, message) in [
        ("sqrt", "X is missing"),
        ("sqrt --steps", "X is missing"),
        ("sqrt 2 3", "3 is one word too many"),
        ("sqrt 2 -- --steps", "--steps is one word too many"),
        ("sqrt two", "X: two is neither a decimal number nor sixteen hexadecimal digits"),
        ("sqrt 0x2", "X: 0x2 is neither a decimal number nor sixteen hexadecimal digits"),
        ("sqrt 2 --bits", "--bits is not for this command"),
        ("sqrt 2 --limit 9", "--limit is not for this command"),
        ("sqrt 2 --steps=9", "--steps has no value"),
        ("sqrt 2 --turns", "there is no option --turns"),
    ] {
        let expected = (64, String::new(), format!("gintubalos: {message}; see gintubalos --help\n"));
        assert_eq!(output(&words(line)), expected, "{line}");
    }
    let (status, out, err) = output(&words("sqrt --help"));
    assert!(status == 0 && err.is_empty() && out.starts_with("  gintubalos sqrt X [--steps]\n"), "{out}");
    assert!(out.contains("a decimal that ends in ..") && out.contains("VOLATILITY and X are decimal"), "{out}");
    assert!(!out.contains("gintubalos board") && !out.contains("gintubalos --version"), "{out}");
    for line in ["sqrt 2", "sqrt 2 --steps"] {
        let full = OpenOptions::new().write(true).open("/dev/full").expect("a device of Linux");
        let (status, _, err) = results(program().args(words(line)).stdout(full).output().expect("the program starts"));
        assert!(status == 74 && err.starts_with("gintubalos: standard output: "), "{line}: {err}");
    }
}
