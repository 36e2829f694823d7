//! `solve`, with its steps as a table or without, and `black`.

use crate::{
    arguments::{Arguments, Market},
    failure::Failure,
    output,
};
use gintubalos::{completed_steps, solve_step_by_step, target, RuleSet, Step};
use std::io::{self, Write};

/// So many steps are shown. By demand 3 a run with a lower limit has the same first records.
pub const MOST_ROWS: i32 = 1000;

/// How the steps are shown.
pub struct Table {
    pub bits: bool,
}

impl Table {
    pub fn asked_for(arguments: &mut Arguments) -> Option<Table> {
        // The patterns are the table's: without it --bits is left, and told to be out of place.
        arguments.flag("--steps").then(|| Table { bits: arguments.flag("--bits") })
    }
}

pub fn solve(mut arguments: Arguments, out: &mut impl Write) -> Result<(), Failure> {
    let market = arguments.market()?;
    let limit = arguments.limit()?;
    let table = Table::asked_for(&mut arguments);
    let rules = arguments.end_with_rules()?;
    write_solution(&market, limit, rules, table, out)
}

pub fn write_solution(
    market: &Market,
    limit: i32,
    rules: RuleSet,
    table: Option<Table>,
    out: &mut impl Write,
) -> Result<(), Failure> {
    let &Market { price, forward, strike, expiry, kind } = market;
    let answer = gintubalos::solve(price, forward, strike, expiry, kind, limit, rules);
    if let Some(table) = table {
        let run = solve_step_by_step(price, forward, strike, expiry, kind, limit.min(MOST_ROWS), rules);
        let sought = sought(market, rules);
        write_question(out, "this price", &[("price", price)], market, limit, rules)?;
        write_legend(out, &[sought])?;
        write_steps(out, &run.trail, sought, completed_steps(answer), &table)?;
    }
    let solution = answer?;
    output::volatility(out, solution.volatility, solution.sentinel())?;
    output::ways(out, solution.branch, solution.ending, solution.steps)?;
    Ok(())
}

/// What is asked, at one price or at two, and under which rules, if they are not the original library's.
pub fn write_question(
    out: &mut impl Write,
    at: &str,
    prices: &[(&str, f64)],
    market: &Market,
    limit: i32,
    rules: RuleSet,
) -> io::Result<()> {
    write!(out, "Asked for: the volatility of a {} at {at}, with a limit of {limit}", market.kind)?;
    if rules != RuleSet::Original {
        write!(out, ",\nunder rule set {}: {rules}", rules.number())?;
    }
    writeln!(out, "\n")?;
    let others = [("forward", market.forward), ("strike", market.strike), ("expiry", market.expiry)];
    prices.iter().chain(&others).try_for_each(|(name, x)| output::float(out, name, *x))?;
    writeln!(out)
}

/// The loop's target, none where there is no loop.
pub fn sought(market: &Market, rules: RuleSet) -> Option<f64> {
    target(market.price, market.forward, market.strike, market.expiry, market.kind, rules).ok().flatten()
}

/// What the table's words mean.
const LEGEND: &str = "\
The loop seeks the s whose price b is the target: the price asked for, taken out
of the money and normalised. s is the volatility times the root of the expiry, b
the normalised price at s, error what b is above the target, vega the slope of b
there; left and right are the bracket after the step's move.
";

/// Before the tables, where one has a target.
pub fn write_legend(out: &mut impl Write, targets: &[Option<f64>]) -> io::Result<()> {
    if targets.iter().all(Option::is_none) {
        return Ok(());
    }
    writeln!(out, "{LEGEND}")
}

/// Each step on three lines, and with its bits on six.
pub fn write_steps(
    out: &mut impl Write,
    steps: &[Step],
    target: Option<f64>,
    completed: u32,
    table: &Table,
) -> io::Result<()> {
    let Some(target) = target else {
        return writeln!(out, "No step was completed: the answer comes without a loop.\n");
    };
    output::float(out, "target", target)?;
    writeln!(out)?;
    if steps.is_empty() {
        return writeln!(out, "No step was completed.\n");
    }
    let mut rows = Vec::new();
    for (i, step) in steps.iter().enumerate() {
        let mut number = (i + 1).to_string();
        let lines = [[step.s, step.price, step.price - target], [step.left, step.right, step.vega]];
        for floats in lines.into_iter().map(Some).chain([None]) {
            for form in
                [output::decimal as fn(f64) -> String, output::bits].into_iter().take(1 + usize::from(table.bits))
            {
                let [a, b, c] =
                    floats.map_or([form(step.s_after), String::new(), String::new()], |floats| floats.map(form));
                rows.push([std::mem::take(&mut number), a, b, c]);
            }
        }
    }
    let heads = [["step", "s", "price b", "error"], ["", "left", "right", "vega"], ["", "s after", "", ""]];
    output::table(out, &heads, &rows)?;
    let more = completed.saturating_sub(steps.len() as u32);
    if more > 0 {
        writeln!(out, "not shown: {} more", output::counted(more.into(), "step"))?;
    }
    writeln!(out)
}

pub fn black(mut arguments: Arguments, out: &mut impl Write) -> Result<(), Failure> {
    let forward = arguments.float("FORWARD")?;
    let strike = arguments.float("STRIKE")?;
    let sigma = arguments.float("SIGMA")?;
    let expiry = arguments.float("EXPIRY")?;
    let kind = arguments.kind()?;
    arguments.end()?;
    let price = gintubalos::black(forward, strike, sigma, expiry, kind)?;
    output::float(out, "price", price)?;
    Ok(())
}
