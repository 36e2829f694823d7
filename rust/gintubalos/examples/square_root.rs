//! Which binary digits does a square root have? They are found from the top, one per turn.
//!
//! The next digit is 1 if the square of the digits so far with a 1 after them isn't above the significand, else 0. For a
//! class: say each digit before its line is printed. Why has the root of 8 the digits of the root of 2, and that of 4 not?
//!
//! `cargo run --release --example square_root`

use gintubalos::{sqrt, sqrt_aligned, sqrt_digits, SQRT_TURNS};

/// So many turns are shown.
const SHOWN: u32 = 8;

/// Binary digits with the point after the first one.
fn pointed(digits: u64) -> String {
    let digits = format!("{digits:b}");
    let (first, others) = digits.split_at(1);
    format!("{first}.{others}")
}

fn show(x: f64) {
    let Some(aligned) = sqrt_aligned(x) else {
        println!("The root of {x} is {}: no digits are looked for", sqrt(x));
        return;
    };
    let significand = aligned.significand as f64 / 2f64.powi(52);
    println!("{x} is {significand} x 2^{}", aligned.exponent);
    for turn in 1..=SHOWN {
        let candidate = 2 * sqrt_digits(x, turn - 1) + 1;
        // So few digits have a square that is a float: nothing is rounded here.
        let square = (candidate * candidate) as f64 / 4f64.powi(turn as i32 - 1);
        let above = if square > significand { "above" } else { "not above" };
        let digit = sqrt_digits(x, turn) % 2;
        println!("turn {turn}  {:<9}  its square {square} is {above} {significand}: {digit}", pointed(candidate));
    }
    let [found, all] = [SHOWN, SQRT_TURNS].map(|turns| pointed(sqrt_digits(x, turns)));
    println!("found   {found}, and after {SQRT_TURNS} turns\n        {all}");
    println!("rounded, and times 2^{}, it is the root {}\n", aligned.exponent / 2, sqrt(x));
}

fn main() {
    for x in [2.0, 8.0, 4.0, -1.0] {
        show(x);
    }
}
