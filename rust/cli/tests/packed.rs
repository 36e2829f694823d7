//! `packed`: prices that are read and written, each on its line, what is rounded, refusals among others, and wrong lines.

mod common;

use common::{output, program, results, words};
use std::fs::OpenOptions;

const REFUSED_36: &str =
    "refused with 36: the packed price has a digit above 9, a sign other than C or D, or zero with D";
const REFUSED_37: &str = "refused with 37: the price is not finite, or after rounding needs more than 15 digits";

/// All that a line is answered with.
fn answer(line: &str, status: i32, expected: &str) {
    assert_eq!(output(&words(line)), (status, expected.to_owned(), String::new()), "{line}");
}

fn read_line(digits: &str, price: &str, float: &str, bits: &str) -> String {
    format!("{digits}  {price:<17}  {float:<24}  {bits}\n")
}

fn written_line(float: &str, digits: &str, price: &str, mark: &str) -> String {
    format!("{}\n", format!("{float:<24}  {digits}  {price:<17}  {mark}").trim_end())
}

const READ: &str = "\
000000000123456C  12.3456            12.3456                   4028B0F27BB2FEC5
000000000000001D  -0.0001            -0.0001                   BF1A36E2EB1C432D
";

#[test]
fn read() {
    answer("packed read 000000000123456C 000000000000001D", 0, READ);
    answer("packed read 000000000123456c 000000000000001d", 0, READ);
    for (digits, price, float, bits) in [
        ("000000000000000C", "0.0000", "0.0", "0000000000000000"),
        ("000000000125000D", "-12.5000", "-12.5", "C029000000000000"),
        ("000000000000001C", "0.0001", "0.0001", "3F1A36E2EB1C432D"),
        ("999999999999999C", "99999999999.9999", "99999999999.9999", "42374876E7FFFFF9"),
        ("999999999999999D", "-99999999999.9999", "-99999999999.9999", "C2374876E7FFFFF9"),
    ] {
        answer(&format!("packed read {digits}"), 0, &read_line(digits, price, float, bits));
    }
}

const WRITTEN: &str = "\
-12.5                     000000000125000D  -12.5000
12.3456                   000000000123456C  12.3456
12.34567                  000000000123457C  12.3457            rounded
";

/// A price below zero is a number and no option.
#[test]
fn write() {
    answer("packed write -12.5 12.3456 12.34567", 0, WRITTEN);
    answer("packed write -- 0xC029000000000000 4028B0F27BB2FEC5 12.34567", 0, WRITTEN);
    for (price, float, digits, written, mark) in [
        ("0", "0.0", "000000000000000C", "0.0000", ""),
        ("-0", "-0.0", "000000000000000C", "0.0000", ""),
        ("-0.00001", "-1e-5", "000000000000000C", "0.0000", "rounded"),
        ("-5e-324", "-5e-324", "000000000000000C", "0.0000", "rounded"),
        ("0.0625", "0.0625", "000000000000625C", "0.0625", ""),
        ("0.03125", "0.03125", "000000000000312C", "0.0312", "rounded"),
        ("0.09375", "0.09375", "000000000000938C", "0.0938", "rounded"),
        ("-0.1", "-0.1", "000000000001000D", "-0.1000", ""),
        ("99999999999.9375", "99999999999.9375", "999999999999375C", "99999999999.9375", ""),
        ("99999999999.9999", "99999999999.9999", "999999999999999C", "99999999999.9999", ""),
        ("0x42374876E7FFFFFC", "99999999999.99994", "999999999999999C", "99999999999.9999", "rounded"),
        ("0xC2374876E7FFFFFC", "-99999999999.99994", "999999999999999D", "-99999999999.9999", "rounded"),
    ] {
        answer(&format!("packed write {price}"), 0, &written_line(float, digits, written, mark));
    }
}

/// What is refused is told in its line, and the status is its number; the others have their answers.
#[test]
fn refusals() {
    let answered = read_line("000000000125000C", "12.5000", "12.5", "4029000000000000");
    for digits in ["000000000000000D", "000000000000000F", "A00000000000000C", "00000000000000AC", "FFFFFFFFFFFFFFFF"] {
        let refused = format!("{digits}  {REFUSED_36}\n");
        answer(&format!("packed read {digits}"), 36, &refused);
        let between = [&answered, &refused, &answered].map(String::as_str).concat();
        answer(&format!("packed read 000000000125000C {digits} 000000000125000c"), 36, &between);
    }
    let answered = written_line("12.5", "000000000125000C", "12.5000", "");
    for (price, float) in [
        ("nan", "NaN"),
        ("-inf", "-inf"),
        ("0x42374876E7FFFFFD", "99999999999.99995"),
        ("0xC2374876E7FFFFFD", "-99999999999.99995"),
        ("1e11", "100000000000.0"),
        ("-1e300", "-1e300"),
    ] {
        let refused = format!("{float:<24}  {REFUSED_37}\n");
        answer(&format!("packed write {price}"), 37, &refused);
        let between = [&answered, &refused, &answered].map(String::as_str).concat();
        answer(&format!("packed write 12.5 {price} 12.5"), 37, &between);
    }
}

/// What stands on a line from one column to another.
fn cell(line: &str, from: usize, to: usize) -> &str {
    line[from..to.min(line.len())].trim_end()
}

/// What is written is read as the same price, and every line fits a screen.
#[test]
fn there_and_back() {
    let prices = words("-12.5 12.3456 -0.1 99999999999.9999 -99999999999.9999 1.7 -2.2250738585072014e-308");
    let (_, written, _) = output(&[&["packed", "write"], &prices[..]].concat());
    let digits: Vec<&str> = written.lines().map(|line| cell(line, 26, 42)).collect();
    let (status, read, _) = output(&[&["packed", "read"], &digits[..]].concat());
    assert_eq!((status, read.lines().count()), (0, prices.len()));
    for (written, read) in written.lines().zip(read.lines()) {
        assert_eq!([cell(written, 26, 42), cell(written, 44, 61)], [cell(read, 0, 16), cell(read, 18, 35)]);
        assert!(written.len() <= 80 && read.len() <= 80, "{written}\n{read}");
    }
}

#[test]
fn usage() {
    for (line, message) in [
        ("packed", "packed wants read or write"),
        ("packed reed 000000000125000C", "there is no packed reed, but packed read and packed write"),
        ("packed READ 000000000125000C", "there is no packed READ, but packed read and packed write"),
        ("packed 12.5", "there is no packed 12.5, but packed read and packed write"),
        ("packed read", "HEX16 is missing"),
        ("packed write", "PRICE is missing"),
        ("packed write --", "PRICE is missing"),
        ("packed read 12.5", "HEX16: 12.5: 16 hexadecimal digits are wanted, and '.' is none"),
        ("packed read 125000C", "HEX16: 125000C: 16 hexadecimal digits are wanted, and not 7"),
        ("packed read 0000000000125000C", "HEX16: 0000000000125000C: 16 hexadecimal digits are wanted, and not 17"),
        (
            "packed read 0x000000000125000C",
            "HEX16: 0x000000000125000C: 16 hexadecimal digits are wanted, and 'x' is none",
        ),
        ("packed read -00000000125000C", "HEX16: -00000000125000C: 16 hexadecimal digits are wanted, and '-' is none"),
        ("packed write 12,5", "PRICE: 12,5 is neither a decimal number nor sixteen hexadecimal digits"),
        ("packed write 12.5 0x2", "PRICE: 0x2 is neither a decimal number nor sixteen hexadecimal digits"),
        ("packed write --12.5", "there is no option --12.5"),
        ("packed write 12.5 --bits", "--bits is not for this command"),
        ("packed read 000000000125000C --limit 9", "--limit is not for this command"),
        // Nothing is answered where one of the words is wrong.
        ("packed read 000000000125000C 12.5", "HEX16: 12.5: 16 hexadecimal digits are wanted, and '.' is none"),
        ("packed write nan twelve", "PRICE: twelve is neither a decimal number nor sixteen hexadecimal digits"),
    ] {
        let expected = (64, String::new(), format!("gintubalos: {message}; see gintubalos --help\n"));
        assert_eq!(output(&words(line)), expected, "{line}");
    }
    assert_eq!(output(&["packed", "read", ""]).0, 64);
    assert_eq!(output(&["packed", "", "12.5"]).0, 64);
    let (status, out, err) = output(&words("packed --help"));
    assert!(status == 0 && err.is_empty() && out.starts_with("  gintubalos packed read HEX16..\n"), "{out}");
    assert!(out.contains("packed write PRICE..") && out.contains("  36  the packed price has"), "{out}");
    assert!(!out.contains("gintubalos board") && !out.contains("gintubalos sqrt"), "{out}");
    assert_eq!(output(&words("packed write -h")).1, out);
    for line in ["packed read 000000000125000C", "packed write 12.5", "packed write nan"] {
        let full = OpenOptions::new().write(true).open("/dev/full").expect("a device of Linux");
        let (status, _, err) = results(program().args(words(line)).stdout(full).output().expect("the program starts"));
        assert!(status == 74 && err.starts_with("gintubalos: standard output: "), "{line}: {err}");
    }
}
