//! How far document 01's rules are from the truth, over the table that rust/accuracy/table.py writes. The rules are those
//! of `rust_over_rules`, which the comparison holds equal to the proved functions.

use rust_over_rules::elementary::{exp, ln};
use rust_over_rules::lets_be_rational::cody::optimized::erfc;
use std::io::{stdin, BufRead};

/// What is measured of one function, in units in the last place.
struct Measurement {
    name: String,
    points: u64,
    sum: f64,
    most: f64,
    at: u64,
}

/// The place of a float among those of its sign; the sign counts, too.
fn place(bits: u64) -> i64 {
    let size = (bits & !(1 << 63)) as i64;
    if bits >> 63 == 0 {
        size
    } else {
        -size
    }
}

/// How far the float `bits` is from the truth, which lies `left` units beyond the float `near`.
pub fn distance(bits: u64, near: u64, left: f64) -> f64 {
    let beyond = if near >> 63 == 0 { left } else { -left };
    ((place(bits) - place(near)) as f64 - beyond).abs()
}

fn rule(name: &str) -> Option<fn(f64) -> f64> {
    match name.split('_').next()? {
        "exp" => Some(exp),
        "ln" => Some(ln),
        "erfc" => Some(erfc),
        _ => None,
    }
}

fn measure(line: &str, all: &mut Vec<Measurement>) -> Option<()> {
    let words: Vec<&str> = line.split_whitespace().collect();
    let [name, x, near, left] = words[..] else { return None };
    let x = u64::from_str_radix(x, 16).ok()?;
    let value = rule(name)?(f64::from_bits(x)).to_bits();
    let off = distance(value, u64::from_str_radix(near, 16).ok()?, left.parse().ok()?);
    let at = all.iter().position(|m| m.name == name).unwrap_or_else(|| {
        all.push(Measurement { name: name.to_string(), points: 0, sum: 0.0, most: -1.0, at: 0 });
        all.len() - 1
    });
    let measurement = &mut all[at];
    measurement.points += 1;
    measurement.sum += off;
    if off > measurement.most {
        (measurement.most, measurement.at) = (off, x);
    }
    Some(())
}

/// Reads the table from standard input and prints a line for each function. Answers false at a line that isn't a table's.
pub fn report() -> bool {
    let mut all = Vec::new();
    for line in stdin().lock().lines() {
        let Ok(line) = line else { return false };
        if measure(&line, &mut all).is_none() {
            eprintln!("not a line of the table: {line}");
            return false;
        }
    }
    for m in all {
        let x = f64::from_bits(m.at);
        let mean = m.sum / m.points as f64;
        println!(
            "{}: {} points, mean {mean:.3} ulp, most {:.3} ulp at {x:e} ({:016X})",
            m.name, m.points, m.most, m.at
        );
    }
    true
}
