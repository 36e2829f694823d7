//! `sqrt`: a square root, and with --steps how its binary digits are found, one per turn. The digits are the library's;
//! squares and what is left of the significand are whole numbers here, so that nothing is rounded.

use crate::{arguments::Arguments, failure::Failure, output};
use gintubalos::{sqrt, sqrt_aligned, sqrt_digits, Aligned, SQRT_TURNS};
use std::io::{self, Write};

/// The binary places of all digits, and of a significand.
const DIGIT_PLACES: u32 = SQRT_TURNS - 1;

/// Those of the square of all digits. Every number that is shown is a whole number of units of 2^-104.
const UNIT_PLACES: u32 = 2 * DIGIT_PLACES;

/// After so many places a decimal is cut, and a binary number goes on below: a line has 80 characters at most.
const DECIMAL_PLACES: usize = 20;
const BINARY_PLACES: usize = 40;

const QUESTION: &str = "Asked for: the square root of X, by one binary digit per turn";

/// What the names mean.
const LEGEND: &str = "\
X is significand x 2^exponent. The exponent is settled first: it is even, so
that the root of X is the significand's root x 2^(exponent / 2). The significand
is from 1 up and below 4; it stands above in decimal and in binary.

Each turn finds the next binary digit of the significand's root, from the top.
The candidate is the digits so far with a 1 after them. Where its square is
above the significand the digit is 0, else 1. square is the square of the digits
found, and left the significand less that square. Binary numbers have all their
places; a decimal that ends in .. goes on: it is cut there, and not rounded.
";

/// Over the table of all turns, which has a row for each.
const OVERVIEW: &str = "\
All turns, a row each: the turn and its digit, and in decimal the digits so far,
their square, and what is left:
     digits                   square                   left
";

/// Why it is decided by what is left.
const ROUNDING: &str = "\
The significand's root is these 53 digits, or less than 2^-52 above them.
Halfway to the next number of 53 digits, at digits + 2^-53, the square is square
+ digits x 2^-52 + 2^-106. So the root is above halfway where left x 2^52 is
above digits, as both are whole multiples of 2^-52. There it is rounded up, else
down.
";

pub fn square_root(mut arguments: Arguments, out: &mut impl Write) -> Result<(), Failure> {
    let x = arguments.float("X")?;
    let steps = arguments.flag("--steps");
    arguments.end()?;
    if steps {
        match sqrt_aligned(x) {
            Some(aligned) => write_steps(out, x, aligned)?,
            None => writeln!(out, "No digits are looked for: X is not positive and finite.\n")?,
        }
    }
    output::float(out, "root", sqrt(x))?;
    Ok(())
}

fn write_steps(out: &mut impl Write, x: f64, aligned: Aligned) -> io::Result<()> {
    let significand = Number::significand(aligned.significand);
    writeln!(out, "{QUESTION}\n")?;
    output::float(out, "X", x)?;
    significand.write(out, "significand")?;
    writeln!(out, "exponent    {}\n\n{LEGEND}", aligned.exponent)?;
    let mut digits = 0;
    for turn in 1..=SQRT_TURNS {
        let candidate = 2 * digits + 1;
        digits = sqrt_digits(x, turn);
        write_turn(out, turn, candidate, digits, significand)?;
    }
    write!(out, "{OVERVIEW}")?;
    for turn in 1..=SQRT_TURNS {
        write_row(out, turn, sqrt_digits(x, turn), significand)?;
    }
    writeln!(out)?;
    write_rounding(out, digits, significand)?;
    writeln!(out, "The root of X is the result x 2^(exponent / 2), here x 2^{}:\n", aligned.exponent / 2)
}

fn write_turn(out: &mut impl Write, turn: u32, candidate: u64, digits: u64, significand: Number) -> io::Result<()> {
    let [square_of_candidate, square] = [candidate, digits].map(|digits| Number::square(digits, turn));
    let above = if square_of_candidate.units > significand.units { "above" } else { "not above" };
    write_cells(out, &format!("turn {turn}"), "decimal", "binary")?;
    Number::digits(candidate, turn).write(out, "candidate")?;
    square_of_candidate.write(out, "its square")?;
    significand.write(out, "significand")?;
    write_cells(out, "digit", &(digits % 2).to_string(), &format!("its square is {above} the significand"))?;
    Number::digits(digits, turn).write(out, "digits")?;
    square.write(out, "square")?;
    significand.less(square).write(out, "left")?;
    writeln!(out)
}

fn write_row(out: &mut impl Write, turn: u32, digits: u64, significand: Number) -> io::Result<()> {
    let square = Number::square(digits, turn);
    let numbers = [Number::digits(digits, turn), square, significand.less(square)];
    let [found, square, left] = numbers.map(Number::decimal);
    writeln!(out, "{turn:>2} {} {found:<24} {square:<24} {left}", digits % 2)
}

fn write_rounding(out: &mut impl Write, digits: u64, significand: Number) -> io::Result<()> {
    let left = significand.less(Number::square(digits, SQRT_TURNS));
    let (enlarged, found) = (left.enlarged(), Number::digits(digits, SQRT_TURNS));
    let up = enlarged.units > found.units;
    let (way, why) = match (left.units, up) {
        (0, _) => ("not", "nothing is left: the root is these digits"),
        (_, true) => ("up", "left x 2^52 is above digits"),
        (_, false) => ("down", "left x 2^52 is not above digits"),
    };
    writeln!(out, "{ROUNDING}")?;
    write_cells(out, "rounding", "decimal", "binary")?;
    enlarged.write(out, "left x 2^52")?;
    found.write(out, "digits")?;
    write_cells(out, "rounded", way, why)?;
    Number::digits(digits + u64::from(up), SQRT_TURNS).write(out, "result")?;
    writeln!(out)
}

fn write_cells(out: &mut impl Write, name: &str, decimal: &str, binary: &str) -> io::Result<()> {
    writeln!(out, "{name:<11} {decimal:<24}  {binary}")
}

/// A number from 0 up and below 4.
#[derive(Clone, Copy)]
struct Number {
    /// Of 2^-104.
    units: u128,
    /// So many binary places are shown: those behind are zero.
    places: u32,
}

impl Number {
    /// It has the places that it needs, one at least.
    fn significand(significand: u64) -> Number {
        let zeros = significand.trailing_zeros().min(DIGIT_PLACES - 1);
        Number { units: u128::from(significand) << DIGIT_PLACES, places: DIGIT_PLACES - zeros }
    }

    /// The digits after a turn, of which one stands before the point.
    fn digits(digits: u64, turn: u32) -> Number {
        let places = turn - 1;
        Number { units: u128::from(digits) << (UNIT_PLACES - places), places }
    }

    fn square(digits: u64, turn: u32) -> Number {
        let places = 2 * (turn - 1);
        Number { units: u128::from(digits).pow(2) << (UNIT_PLACES - places), places }
    }

    fn less(self, other: Number) -> Number {
        Number { units: self.units - other.units, places: self.places.max(other.places) }
    }

    /// Times 2^52, of what is left after the last turn.
    fn enlarged(self) -> Number {
        Number { units: self.units << DIGIT_PLACES, places: DIGIT_PLACES }
    }

    fn whole(self) -> u128 {
        self.units >> UNIT_PLACES
    }

    /// With all places, one at least, or cut.
    fn decimal(self) -> String {
        let mask = (1 << UNIT_PLACES) - 1;
        let mut rest = self.units & mask;
        let mut text = format!("{}.", self.whole());
        for place in 0..DECIMAL_PLACES {
            if place > 0 && rest == 0 {
                return text;
            }
            rest *= 10;
            text += &(rest >> UNIT_PLACES).to_string();
            rest &= mask;
        }
        text + if rest == 0 { "" } else { ".." }
    }

    /// The places behind the point, so many in a line.
    fn binary_lines(self) -> Vec<String> {
        let places: Vec<u128> = (1..=self.places).map(|place| self.units >> (UNIT_PLACES - place) & 1).collect();
        places.chunks(BINARY_PLACES).map(|line| line.iter().map(u128::to_string).collect()).collect()
    }

    /// In decimal and in binary, with its point below those of other numbers.
    fn write(self, out: &mut impl Write, name: &str) -> io::Result<()> {
        let mut lines = self.binary_lines().into_iter();
        let first = lines.next().map_or_else(String::new, |line| format!(".{line}"));
        writeln!(out, "{name:<11} {:<24} {:>2b}{first}", self.decimal(), self.whole())?;
        lines.try_for_each(|line| writeln!(out, "{:40}{line}", ""))
    }
}
