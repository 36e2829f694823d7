//! The fixed list that crates/samples replays: answers of the Rust and of what is written from document 02, a line for
//! each. The function's number in two decimal digits, nine arguments and the answer's bits in sixteen hexadecimal digits
//! each, and the number of a refusal in two decimal digits, 00 where there is none.
//!
//! Number 0 is erfc at published points: x, the float nearest to the true value, and how many units in the last place
//! the rules are away from it. From 1 on the numbers are those of the table of functions, from 37 on layer 3's, 42 is the
//! live board's, 43 and 44 are the square root's, and 45 and 46 packed prices'.

use crate::{
    board_samples,
    functions::{Answer, Function, FUNCTIONS},
    inputs::{wide, Arguments},
    packed_samples, records, root_samples,
};
use random_words::Words;
use rust_over_rules::lets_be_rational::cody::optimized::erfc;

/// Abramowitz and Stegun's table 7.1 and points of the far tail, as rust/accuracy/table.py writes them: x, erf x as
/// printed (or a hyphen), the bits of x and of the float nearest to erfc x.
const PUBLISHED: &str = include_str!("published.txt");

const SEED: u64 = 1964;
const EDGES: usize = 14;
const BORDERS: usize = 6;
const RANDOM: usize = 12;

pub fn line(number: usize, arguments: Arguments, (bits, refused): Answer) {
    let words: String = arguments.iter().map(|x| format!(" {x:016X}")).collect();
    println!("{number:02}{words} {bits:016X} {refused:02}");
}

fn published() {
    for entry in PUBLISHED.lines() {
        let words: Vec<&str> = entry.split_whitespace().collect();
        let bits = |i: usize| u64::from_str_radix(words[i], 16).expect("bits in hexadecimal");
        let (x, near) = (bits(2), bits(3));
        let answer = erfc(f64::from_bits(x)).to_bits();
        line(0, wide([x, near]), (answer.abs_diff(near), 0));
    }
}

/// The inputs of one function: both zeros, the least number, the infinities and a NaN in the first place, then other
/// edge values, then some on borders, then random inputs, then those that are kept for what they reach.
fn inputs(function: &Function) -> Vec<Arguments> {
    let mut words = Words::new(SEED, function.name, 0);
    let edges = (function.edges)();
    let specials = [0, 1 << 63, 1, 0x7FF0 << 48, 0xFFF0 << 48, 0xFFF0_0000_0000_0001];
    let mut all: Vec<Arguments> = Vec::new();
    for i in 0..EDGES {
        let mut arguments = [0; 9];
        for (place, values) in edges.values.iter().enumerate() {
            arguments[place] = words.choice(values);
        }
        arguments[0] = specials.get(i).copied().unwrap_or(arguments[0]);
        all.push(arguments);
    }
    if !edges.borders.is_empty() {
        all.extend((0..BORDERS).map(|_| words.choice(&edges.borders)));
    }
    all.extend((0..RANDOM).map(|_| (function.inputs)(&mut words)));
    all.extend(edges.samples);
    all
}

pub fn write() {
    published();
    for (i, function) in FUNCTIONS.iter().enumerate() {
        inputs(function).into_iter().for_each(|a| line(i + 1, a, (function.rust)(a)));
    }
    records::write(SEED);
    board_samples::write(SEED);
    root_samples::write(SEED);
    packed_samples::write(SEED);
}
