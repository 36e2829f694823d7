//! A model of document 01's trail, book and listing over plain bytes, and of what document 02 adds, written from their texts
//! alone.

use crate::elementary::bits_of;
use crate::rule_set::RuleSet;
use crate::solver::{solve, Market, Run};
use crate::steps::Step;
use crate::OptionType;

/// A record's bytes in the trail and in the book.
pub const STEP: usize = 48;
pub const RECORD: usize = 64;

/// Document 01's number, and the completed steps.
#[derive(Clone, Copy, Debug, PartialEq, Eq)]
pub struct Refusal {
    pub number: u8,
    pub steps: u32,
}

fn refusal(number: u8) -> Refusal {
    Refusal { number, steps: 0 }
}

/// Writes the records to the trail; the bytes after the last one stay.
pub fn write_trail(steps: &[Step], trail: &mut [u8]) {
    for (i, r) in steps.iter().enumerate() {
        for (j, x) in [r.s, r.b, r.vega, r.left, r.right, r.after].into_iter().enumerate() {
            put(trail, STEP * i + 8 * j, &bits_of(x).to_le_bytes());
        }
    }
}

fn put(bytes: &mut [u8], at: usize, part: &[u8]) {
    bytes[at..at + part.len()].copy_from_slice(part);
}

fn get<const N: usize>(bytes: &[u8], at: usize) -> [u8; N] {
    std::array::from_fn(|i| bytes[at + i])
}

fn float(bytes: &[u8], at: usize) -> f64 {
    f64::from_le_bytes(get(bytes, at))
}

/// The kinds' bytes; any other is outside the layout.
pub fn kind_of(byte: u8) -> Option<OptionType> {
    match byte {
        1 => Some(OptionType::Call),
        2 => Some(OptionType::Put),
        _ => None,
    }
}

/// The record of a run that was not refused: all of its 64 bytes.
pub fn record(market: Market, limit: i32, run: &Run) -> Result<[u8; RECORD], Refusal> {
    let solution = run.answer.map_err(|number| Refusal { number, steps: run.count() })?;
    let mut bytes = [0; RECORD];
    let floats = [market.price, market.forward, market.strike, market.expiry, solution.volatility];
    for (i, x) in floats.into_iter().enumerate() {
        put(&mut bytes, 8 * i, &bits_of(x).to_le_bytes());
    }
    put(&mut bytes, 40, &limit.to_le_bytes());
    put(&mut bytes, 44, &run.count().to_le_bytes());
    bytes[48] = match market.kind {
        OptionType::Call => 1,
        OptionType::Put => 2,
    };
    (bytes[49], bytes[50]) = (solution.branch, solution.ending);
    Ok(bytes)
}

/// A record's market and limit, or 24.
pub fn market_and_limit(record: &[u8; RECORD]) -> Result<(Market, i32), Refusal> {
    let kind = kind_of(record[48]).ok_or(refusal(24))?;
    if record[49] > 5 || record[50] > 2 || record[51..].iter().any(|spare| *spare != 0) {
        return Err(refusal(24));
    }
    let [price, forward, strike, expiry] = [0, 8, 16, 24].map(|at| float(record, at));
    Ok((Market { price, forward, strike, expiry, kind }, i32::from_le_bytes(get(record, 40))))
}

/// What the record's input answers now under a rule set, as a record, and the record's numbers where it is refused: "32 ...
/// before every other check except 23 and 24 at a recheck".
fn solve_again(rule_set: u32, old: &[u8; RECORD]) -> Result<[u8; RECORD], Refusal> {
    let (market, limit) = market_and_limit(old)?;
    record(market, limit, &solve(rule_set, market, limit, None))
}

fn slots(book: &[u8]) -> u64 {
    (book.len() / RECORD) as u64
}

/// Writes slot `used` and answers used + 1.
pub fn file(rule_set: u32, market: Market, limit: i32, book: &mut [u8], used: u64) -> Result<u64, Refusal> {
    RuleSet::of(rule_set).map_err(refusal)?;
    if let Some(number) = market.input_number() {
        return Err(refusal(number));
    }
    if used > slots(book) {
        return Err(refusal(23));
    }
    if used == slots(book) {
        return Err(refusal(22));
    }
    let new = record(market, limit, &solve(rule_set, market, limit, None))?;
    put(book, RECORD * used as usize, &new);
    Ok(used + 1)
}

/// Record k's own part of the book, or 23.
pub fn read(book: &[u8], used: u64, k: u64) -> Result<&[u8], u8> {
    if k >= used || used > slots(book) {
        return Err(23);
    }
    let at = RECORD * k as usize;
    Ok(&book[at..at + RECORD])
}

/// Whether record k's volatility, steps, branch and ending are what its input answers now.
pub fn recheck(book: &[u8], used: u64, k: u64, rule_set: u32) -> Result<bool, Refusal> {
    let old: [u8; RECORD] = get(read(book, used, k).map_err(refusal)?, 0);
    let new = solve_again(rule_set, &old)?;
    let compared = (32..40).chain(44..48).chain(49..51);
    Ok(compared.into_iter().all(|i| old[i] == new[i]))
}

/// relist's line of record number `index`, whose bytes these are: a last part may be short. "`relist` stays at rule set 0."
pub fn line(index: u64, bytes: &[u8]) -> String {
    let answer = if bytes.len() < RECORD { Err(refusal(23)) } else { solve_again(0, &get(bytes, 0)) };
    match answer {
        Ok(new) => {
            let volatility = u64::from_le_bytes(get(&new, 32));
            let steps = u32::from_le_bytes(get(&new, 44));
            format!("{index} {volatility:016X} {steps} {} {}\n", new[49], new[50])
        }
        Err(Refusal { number, .. }) => format!("{index} REF {number}\n"),
    }
}
