//! The square root beside the machine's, and its digits after every turn and its aligned significand beside document 02's;
//! and what the inputs among them reach.

use crate::{
    digits::{aligned, Aligned, ONE, TURNS},
    edges::{INFINITY, SIGN},
    inputs::power,
    root_inputs::{fixed, random, GREATEST, LEAST},
    tally::{report_counts, Tally},
};
use gintubalos::bits as ours;
use random_words::Words;
use rust_over_rules::elementary::{bits_of, sqrt};
use std::{collections::BTreeMap, ops::RangeInclusive};

extern "C" {
    fn gintubalos_sqrt_aligned(x: u64, exponent: &mut i32) -> u64;
}

/// The exponent is no zero before, as it is in the crate's call, so that it shows where none is written.
fn our_aligned(x: u64) -> (u64, i32) {
    let mut exponent = 0x5A5A_5A5A;
    // SAFETY: the function writes the exponent and nothing else; it has no requires, keeps no pointer, and is proved to end.
    let significand = unsafe { gintubalos_sqrt_aligned(x, &mut exponent) };
    (significand, exponent)
}

// ---- the comparison

fn root(tally: &mut Tally, x: u64) {
    let (found, expected) = (ours::sqrt(x), bits_of(sqrt(f64::from_bits(x))));
    tally.roots.count_root(&Root::new(x, expected));
    tally.count(found == expected, || format!("sqrt({x:016X}): {found:016X}, the machine has {expected:016X}"));
}

/// Compares what is found after some turns, and holds it against the document's sentence and what was found before.
fn turn(tally: &mut Tally, x: u64, of: Option<Aligned>, turns: u32, before: u64) -> u64 {
    let found = ours::sqrt_digits(x, turns);
    let expected = of.map_or(0, |aligned| aligned.digits(turns));
    let is_greatest = of.is_none_or(|aligned| aligned.has_digits(found, turns));
    // A turn finds one digit more; turn 0 and those after the last one find none.
    let is_a_turn = (1..=TURNS).contains(&turns);
    let is_next = before == if is_a_turn { found / 2 } else { found };
    tally.count(found == expected && is_greatest && is_next, || {
        let why = if is_greatest { "" } else { ", and ours are not the greatest" };
        format!("sqrt_digits({x:016X}, {turns}): {found:X}, after {before:X}, document 02 has {expected:X}{why}")
    });
    if let Some(aligned) = of.filter(|_| is_a_turn) {
        tally.roots.count_turn(aligned, turns, expected);
    }
    found
}

/// After each turn, after one turn more than there are, and after others that are more.
fn digits(tally: &mut Tally, x: u64, others: &[u32]) {
    let of = aligned(x);
    let last = (0..=TURNS + 1).fold(0, |before, turns| turn(tally, x, of, turns, before));
    others.iter().for_each(|turns| _ = turn(tally, x, of, *turns, last));
}

fn alignment(tally: &mut Tally, x: u64) {
    let (found, of) = (our_aligned(x), aligned(x));
    let expected = of.map_or((0, 0), |aligned| (aligned.significand, aligned.exponent));
    let is_x = of.is_none() || is_aligned(found) && is_significand_of(f64::from_bits(x), found);
    tally.count(found == expected && is_x, || {
        let why = if is_x { "" } else { ", and ours is not x aligned" };
        let [found, expected] = [found, expected].map(|(significand, exponent)| format!("{significand:X} {exponent}"));
        format!("sqrt_aligned({x:016X}): {found}, document 02 has {expected}{why}")
    });
    if let Some(aligned) = of {
        tally.roots.count(At::Exponent, aligned.first_exponent());
    }
}

fn is_aligned((significand, exponent): (u64, i32)) -> bool {
    (ONE..4 * ONE).contains(&significand) && (LEAST..=GREATEST).contains(&exponent.into()) && exponent % 2 == 0
}

/// Whether x is significand × 2^-52 × 2^exponent. A power of two leaves x all its digits where nothing is subnormal.
fn is_significand_of(x: f64, (significand, exponent): (u64, i32)) -> bool {
    let half = power(i64::from(-exponent / 2));
    (x * half * half * power(52)) as u64 == significand
}

// ---- inputs

/// Turns after the last one; of eight bits or sixteen, or with a sign, some of them are fewer, or none.
const AFTER_THE_LAST: [u32; 12] = [55, 63, 64, 65, 128, 256, 282, 65536, 65562, 1 << 31, u32::MAX - 1, u32::MAX];

/// The fixed inputs are compared in so many parts, each by a thread.
const FIXED_PARTS: usize = 4;

fn each_fixed(part: usize, each: impl FnMut(u64)) {
    fixed().into_iter().skip(part).step_by(FIXED_PARTS).for_each(each);
}

pub fn fixed_roots<const PART: usize>(tally: &mut Tally) {
    each_fixed(PART, |x| root(tally, x));
}

pub fn fixed_digits<const PART: usize>(tally: &mut Tally) {
    each_fixed(PART, |x| digits(tally, x, &AFTER_THE_LAST));
}

pub fn fixed_alignments<const PART: usize>(tally: &mut Tally) {
    each_fixed(PART, |x| alignment(tally, x));
}

pub fn random_root(words: &mut Words, tally: &mut Tally) {
    root(tally, random(words));
}

pub fn random_digits(words: &mut Words, tally: &mut Tally) {
    let x = random(words);
    let other = words.any() as u32 >> words.below(26);
    digits(tally, x, &[other.max(TURNS + 1), u32::MAX]);
}

pub fn random_alignment(words: &mut Words, tally: &mut Tally) {
    alignment(tally, random(words));
}

// ---- the cases

/// An input of the root, and how what is expected lies by the true root.
struct Root {
    x: u64,
    /// Of a positive finite one.
    rounded: Option<Rounded>,
}

struct Rounded {
    aligned: Aligned,
    /// The radicand less the square of the rounded root: the root's way to it, in units of the last place, times twice the
    /// root, which is from 2^52 up and below 2^53.
    rest: i128,
    /// The same of twice the root and twice the middle on its side of the rounded one: the root's way to the middle, times
    /// eight times the root.
    rest_at_middle: i128,
}

impl Root {
    fn new(x: u64, root: u64) -> Root {
        let rounded = aligned(x).map(|aligned| {
            let (radicand, root) = (aligned.radicand() as i128, i128::from(root % ONE + ONE));
            let rest = radicand - root * root;
            let twice_middle = 2 * root + rest.signum();
            Rounded { aligned, rest, rest_at_middle: 4 * radicand - twice_middle * twice_middle }
        });
        Root { x, rounded }
    }

    fn float(&self) -> f64 {
        f64::from_bits(self.x)
    }

    fn is_rounded(&self, of: impl Fn(&Rounded) -> bool) -> bool {
        self.rounded.as_ref().is_some_and(of)
    }

    fn is_nan(&self, of: impl Fn(u64) -> bool) -> bool {
        self.float().is_nan() && of(self.x)
    }
}

const QUIET: u64 = 1 << 51;

type Case = (&'static str, fn(&Root) -> bool);

const CASES: [Case; 22] = [
    ("the root is a float", |met| met.is_rounded(|of| of.rest == 0)),
    ("rounded down", |met| met.is_rounded(|of| of.rest > 0)),
    ("rounded up", |met| met.is_rounded(|of| of.rest < 0)),
    ("rounded down by less than 2^-49 of a unit", |met| met.is_rounded(|of| (1..16).contains(&of.rest))),
    ("rounded up by less than 2^-49 of a unit", |met| met.is_rounded(|of| (1..16).contains(&-of.rest))),
    ("rounded down from less than 2^-49 of a unit below a middle", |met| {
        met.is_rounded(|of| of.rest > 0 && (1..64).contains(&-of.rest_at_middle))
    }),
    ("rounded up from less than 2^-49 of a unit above a middle", |met| {
        met.is_rounded(|of| of.rest < 0 && (1..64).contains(&of.rest_at_middle))
    }),
    ("an even exponent", |met| met.is_rounded(|of| of.aligned.first_exponent() % 2 == 0)),
    ("an odd exponent", |met| met.is_rounded(|of| of.aligned.first_exponent() % 2 != 0)),
    ("a subnormal above 0", |met| met.is_rounded(|_| met.float().is_subnormal())),
    ("the least float above 0", |met| met.x == 1),
    ("the greatest subnormal", |met| met.x == ONE - 1),
    ("the least normal float", |met| met.x == ONE),
    ("the greatest float", |met| met.float() == f64::MAX),
    ("0", |met| met.x == 0),
    ("-0", |met| met.x == SIGN),
    ("infinity", |met| met.x == INFINITY),
    ("-infinity", |met| met.x == SIGN | INFINITY),
    ("a finite one below 0", |met| (f64::MIN..0.0).contains(&met.float())),
    ("a quiet NaN", |met| met.is_nan(|x| x & QUIET != 0)),
    ("a signalling NaN", |met| met.is_nan(|x| x & QUIET == 0)),
    ("a NaN with a sign", |met| met.is_nan(|x| x & SIGN != 0)),
];

/// What is to be met at each of some turns of positive finite inputs, or of their exponents.
#[derive(Clone, Copy, PartialEq, Eq, PartialOrd, Ord)]
enum At {
    ZeroFound,
    OneFound,
    SquareMet,
    Exponent,
}

/// Turn 1 finds a 1, and the square of a root with more than 27 digits has more than a float.
const EACH: [(At, &str, RangeInclusive<i32>); 4] = [
    (At::ZeroFound, "a 0 is found at turn", 2..=53),
    (At::OneFound, "a 1 is found at turn", 1..=53),
    (At::SquareMet, "the square is met at turn", 1..=27),
    (At::Exponent, "the exponent is", -1074..=1023),
];

/// What calls met; of the root there are too many for names as keys.
#[derive(Default)]
pub struct Counts {
    /// In the order of CASES.
    cases: [u64; CASES.len()],
    each: BTreeMap<(At, i32), u64>,
}

impl Counts {
    pub fn add(&mut self, other: Counts) {
        self.cases.iter_mut().zip(other.cases).for_each(|(count, more)| *count += more);
        for (case, count) in other.each {
            *self.each.entry(case).or_default() += count;
        }
    }

    fn count_root(&mut self, met: &Root) {
        self.cases.iter_mut().zip(&CASES).for_each(|(count, (_, is_met))| *count += u64::from(is_met(met)));
    }

    fn count(&mut self, at: At, number: i32) {
        *self.each.entry((at, number)).or_default() += 1;
    }

    fn count_turn(&mut self, of: Aligned, turns: u32, digits: u64) {
        let turn = turns as i32;
        self.count(if digits % 2 == 1 { At::OneFound } else { At::ZeroFound }, turn);
        if digits % 2 == 1 && of.has_root(digits, turns) {
            self.count(At::SquareMet, turn);
        }
    }

    /// Prints how often each number of some cases was met at least, and gives those at which one was not.
    fn report(&self, cases: &[At]) -> Vec<String> {
        let mut missing = Vec::new();
        println!("positive finite inputs:");
        for (at, what, numbers) in EACH.into_iter().filter(|(at, ..)| cases.contains(at)) {
            let count = |number| self.each.get(&(at, number)).copied().unwrap_or(0);
            let least = numbers.clone().map(count).min().unwrap_or(0);
            println!("  {what} {} to {}: each {least} times at least", numbers.start(), numbers.end());
            missing.extend(numbers.filter(|number| count(*number) == 0).map(|number| format!("{what} {number}")));
        }
        missing
    }
}

/// Prints how often each case of the root was met, and gives those that were not; and so below for the others.
pub fn report_roots(tally: &Tally) -> Vec<String> {
    let counts = tally.roots.cases;
    report_counts("inputs of the root:", CASES.iter().zip(counts).map(|((name, _), count)| (*name, count)))
}

pub fn report_digits(tally: &Tally) -> Vec<String> {
    tally.roots.report(&[At::ZeroFound, At::OneFound, At::SquareMet])
}

pub fn report_alignments(tally: &Tally) -> Vec<String> {
    tally.roots.report(&[At::Exponent])
}

#[cfg(test)]
mod tests {
    use super::*;

    /// The fixed inputs alone meet every case.
    #[test]
    fn fixed_inputs_meet_every_case() {
        let mut tally = Tally::default();
        for x in fixed() {
            root(&mut tally, x);
            digits(&mut tally, x, &[]);
            alignment(&mut tally, x);
        }
        for report in [report_roots, report_digits, report_alignments] {
            assert_eq!(report(&tally), [""; 0]);
        }
    }
}
