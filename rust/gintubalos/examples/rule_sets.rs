//! A Call at 120 on a future at 200, struck at 100, with a year to go: which volatility does its price imply?
//!
//! A Call is worth less than its future, whatever the volatility: the course book therefore caps its price at the forward,
//! here 200. The original library caps it at the strike, here 100, and calls 120 above the maximum. For a class: which of
//! the two caps can be reached, and why is a Put's the other one?
//!
//! `cargo run --release --example rule_sets`

use gintubalos::{solve, OptionType::Call, Refusal, RuleSet};

fn main() -> Result<(), Refusal> {
    for rules in RuleSet::ALL.iter().copied() {
        let solution = solve(120.0, 200.0, 100.0, 1.0, Call, 2, rules)?;
        print!("rule set {}, {rules}: ", rules.number());
        match solution.sentinel() {
            Some(sentinel) => println!("no volatility, for {sentinel}"),
            None => println!("volatility {}, after {} steps", solution.volatility, solution.steps),
        }
    }
    Ok(())
}
