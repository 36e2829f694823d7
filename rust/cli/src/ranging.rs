//! `range`: a low and a high price of one option, side by side.

use crate::{
    arguments::{Arguments, Market},
    failure::Failure,
    output,
    solving::{sought, write_legend, write_question, write_steps, Table, MOST_ROWS},
};
use gintubalos::{bid_ask, bid_ask_step_by_step, completed_steps, BidAsk, Refusal, Run, Solution};
use std::io::{self, Write};

type Answer = Result<Solution, Refusal>;

/// What is shown of an end.
const NAMES: [&str; 4] = ["volatility", "branch", "ending", "steps"];

/// Two columns of so many characters fit 80 with the names before them.
const WIDTH: usize = 33;

/// The status: 0, or the number of the end that is refused, the low one's where both are.
pub fn range(mut arguments: Arguments, out: &mut impl Write) -> Result<u8, Failure> {
    let markets @ [market, _] = arguments.range()?;
    let limit = arguments.limit()?;
    let table = Table::asked_for(&mut arguments);
    let rules = arguments.end_with_rules()?;
    let prices @ [low, high] = markets.map(|market| market.price);
    let Market { forward, strike, expiry, kind, .. } = market;
    if table.is_some() {
        write_question(out, "both prices", &[("low price", low), ("high price", high)], &market, limit, rules)?;
    }
    let BidAsk { low: low_end, high: high_end } = bid_ask(low, high, forward, strike, expiry, kind, limit, rules)?;
    let ends = [low_end, high_end];
    if let Some(table) = table {
        let runs = bid_ask_step_by_step(low, high, forward, strike, expiry, kind, limit.min(MOST_ROWS), rules)?;
        let targets = markets.map(|market| sought(&market, rules));
        write_tables(out, prices, targets, ends, [runs.low, runs.high], &table)?;
    }
    write_ends(out, prices, ends)?;
    Ok(ends.into_iter().find_map(Result::err).map_or(0, |refusal| refusal.number))
}

/// The steps of each end, one table after the other: side by side they would not fit 80 characters.
fn write_tables(
    out: &mut impl Write,
    prices: [f64; 2],
    targets: [Option<f64>; 2],
    ends: [Answer; 2],
    runs: [Run; 2],
    table: &Table,
) -> io::Result<()> {
    write_legend(out, &targets)?;
    for (i, name) in ["low", "high"].into_iter().enumerate() {
        writeln!(out, "At the {name} price, {}:\n", output::decimal(prices[i]))?;
        write_steps(out, &runs[i].trail, targets[i], completed_steps(ends[i]), table)?;
    }
    Ok(())
}

/// A column for each end.
fn write_ends(out: &mut impl Write, prices: [f64; 2], ends: [Answer; 2]) -> io::Result<()> {
    let [low_price, high_price] = prices.map(output::decimal);
    let heads = [["", "low", "high"], ["price", &low_price, &high_price]];
    let [low, high] = ends.map(cells);
    let mut rows = Vec::new();
    for (name, (low, high)) in NAMES.into_iter().zip(low.into_iter().zip(high)) {
        for i in 0..low.len().max(high.len()) {
            let name = if i == 0 { name } else { "" };
            let line = |cell: &[String]| cell.get(i).cloned().unwrap_or_default();
            rows.push([name.to_owned(), line(&low), line(&high)]);
        }
    }
    output::table(out, &heads, &rows)
}

/// What stands beside the names, each in its lines. A refusal is told in the volatility's place.
fn cells(end: Answer) -> [Vec<String>; 4] {
    let (volatility, [branch, ending, steps]) = match end {
        Ok(solution) => {
            let mut volatility = vec![output::decimal(solution.volatility), output::bits(solution.volatility)];
            if let Some(sentinel) = solution.sentinel() {
                volatility.extend(output::wrapped(&output::not_meant(sentinel), WIDTH));
            }
            (volatility, output::ways_in_words(solution.branch, solution.ending, solution.steps))
        }
        Err(refusal) => {
            let none = || "-".to_owned();
            (output::wrapped(&refusal.to_string(), WIDTH), [none(), none(), refusal.steps.to_string()])
        }
    };
    [volatility, vec![branch], vec![ending], vec![steps]]
}
