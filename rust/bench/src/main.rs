//! Measures the proved functions beside the Rust, over document 01's elementary functions and over std's, and writes a
//! table: ns per call, and ours divided by theirs; then a root's digits by themselves, bid and ask beside two solves, the
//! live board's calls by themselves, packed prices beside plain Rust, and what the crate's look at the environment costs.
//! Exit status: 2 bad usage; 3 the Rust's source wasn't at hand when this was built, and there is nothing to compare with.

mod board;
mod clock;
mod inputs;
mod listing;
mod packed;

use clock::{measure, measure_look, over, Effort};
use gintubalos::probe::bits;
use inputs::{Class, Market, CLASSES, REGIONS};
use std::{env, process::exit};

const USAGE: &str = "usage: bench [--quick] [--only PART]

  --quick      a rough table in some seconds
  --only PART  the rows alone that have this in their names";

const LIMIT: i32 = 2;
/// A trail that is long enough.
type Trail = [u8; 48 * LIMIT as usize];
const TRAIL: Trail = [0; 48 * LIMIT as usize];

/// Inputs of a row, and records of a listing.
const COUNT: usize = 2048;
const RECORDS: usize = 40_000;

/// A function of the source folder in both of its builds, with the kind's byte turned into theirs, under a rule set: the
/// module that has its source.
macro_rules! rust_solve {
    ($name:ident, $side:ident, $rule_set:ident) => {
        fn $name(floats: [f64; 4], kind: u8, limit: i32) -> f64 {
            let [price, forward, strike, expiry] = floats;
            let kind = if kind == 1 { $side::OptionType::Call } else { $side::OptionType::Put };
            use $side::$rule_set::so_rational as solver;
            solver::implied_volatility_from_a_transformed_rational_guess_with_limited_iterations(
                price, forward, strike, expiry, kind, limit,
            )
        }
    };
}

rust_solve!(rules_solve, rust_over_rules, lets_be_rational);
rust_solve!(std_solve, rust_over_std, lets_be_rational);
rust_solve!(rules_solve_under_1, rust_over_rules, rule_set_1);
rust_solve!(std_solve_under_1, rust_over_std, rule_set_1);

/// Our solve, without a trail and with one, and our price of a call. Nothing but its own row is under rule set 1.
fn our_solve(market: &Market) -> u64 {
    our_solve_under(0, market)
}

fn our_solve_under(rule_set: u32, market: &Market) -> u64 {
    let [price, forward, strike, expiry] = market.bits();
    bits::implied_volatility_from_a_transformed_rational_guess(price, forward, strike, expiry, market.kind, rule_set).0
}

fn our_solve_with_trail(market: &Market, trail: &mut [u8]) -> u64 {
    let [price, forward, strike, expiry] = market.bits();
    bits::solve_with_trail(price, forward, strike, expiry, market.kind, LIMIT, 0, trail).0
}

/// Both volatilities of a pair in one word.
fn both([low, high]: [u64; 2]) -> u64 {
    low ^ high.rotate_left(32)
}

fn our_bid_ask([low, high]: &[Market; 2]) -> u64 {
    let [price, forward, strike, expiry] = low.bits();
    let (_, ends) = bits::bid_ask_without_trails(price, high.bits()[0], forward, strike, expiry, low.kind, LIMIT, 0);
    both(ends.map(|(volatility, _)| volatility))
}

fn our_bid_ask_with_trails([low, high]: &[Market; 2], [low_trail, high_trail]: &mut [Trail; 2]) -> u64 {
    let [price, forward, strike, expiry] = low.bits();
    let high = high.bits()[0];
    let (_, ends) = bits::bid_ask(price, high, forward, strike, expiry, low.kind, LIMIT, 0, low_trail, high_trail);
    both(ends.map(|(volatility, _)| volatility))
}

fn our_call(floats: &[f64; 4]) -> u64 {
    let [forward, strike, sigma, expiry] = floats.map(f64::to_bits);
    bits::black(forward, strike, sigma, expiry, 1).0
}

struct Bench {
    effort: Effort,
    records: usize,
    turns: usize,
    only: Option<String>,
}

impl Bench {
    fn wants(&self, name: &str) -> bool {
        self.only.as_ref().is_none_or(|part| name.contains(part.as_str()))
    }

    fn row<I>(
        &self,
        name: &str,
        inputs: &[I],
        ours: impl FnMut(&I) -> u64,
        mut over_rules: impl FnMut(&I) -> f64,
        mut over_std: impl FnMut(&I) -> f64,
    ) {
        let (over_rules, over_std) = (|x: &I| over_rules(x).to_bits(), |x: &I| over_std(x).to_bits());
        self.row_of_bits(name, inputs, ours, over_rules, over_std);
    }

    /// The first two sides are to have the same answers.
    fn row_of_bits<I>(
        &self,
        name: &str,
        inputs: &[I],
        mut ours: impl FnMut(&I) -> u64,
        mut same: impl FnMut(&I) -> u64,
        mut other: impl FnMut(&I) -> u64,
    ) {
        if !self.wants(name) {
            return;
        }
        if inputs.len() < COUNT {
            println!("<!-- {name}: {} inputs found, {COUNT} wanted -->", inputs.len());
            return;
        }
        // The same answers are the same work.
        for (i, input) in inputs.iter().enumerate() {
            let (a, b) = (ours(input), same(input));
            assert!(a == b, "{name}, input {i}: {a:016X} and {b:016X}");
        }
        let sides: [clock::Side<I>; 3] = [&mut over(&mut ours), &mut over(&mut same), &mut over(&mut other)];
        let [ours, same, other] = measure(inputs, sides, self.effort);
        println!("| {name} | {ours:.1} | {same:.1} | {:.2} | {other:.1} | {:.2} |", ours / same, ours / other);
    }

    fn solves(&self, class: &Class) {
        let (plain, with_trail) = (format!("solve, {}", class.name), format!("solve with a trail, {}", class.name));
        if !self.wants(&plain) && !self.wants(&with_trail) {
            return;
        }
        let markets = class.markets(COUNT);
        let over_rules = |m: &Market| rules_solve(m.floats, m.kind, LIMIT);
        let over_std = |m: &Market| std_solve(m.floats, m.kind, LIMIT);
        self.row(&plain, &markets, our_solve, over_rules, over_std);
        let mut trail = TRAIL;
        self.row(&with_trail, &markets, |m| our_solve_with_trail(m, &mut trail), over_rules, over_std);
    }

    /// Under rule set 1 a loop is reached where rule set 0 says above maximum: in the money, between the two caps.
    fn between_the_caps(&self) {
        self.row(
            "solve under rule set 1, between the caps",
            &inputs::between_the_caps(COUNT),
            |m| our_solve_under(1, m),
            |m| rules_solve_under_1(m.floats, m.kind, LIMIT),
            |m| std_solve_under_1(m.floats, m.kind, LIMIT),
        );
    }

    /// Two prices of an option, one per cent apart, in one call, in two of ours, and in two of the Rust.
    fn bid_ask(&self) {
        if !self.wants("bid_ask") {
            return;
        }
        println!("\n| ns per pair | bid_ask | two solves | ratio | Rust over 01, two solves | ratio |");
        println!("|---|---:|---:|---:|---:|---:|");
        // The shortest solves, and those of a board.
        for (what, markets) in [(CLASSES[2].name, CLASSES[2].markets(COUNT)), ("quotes", inputs::quotes(COUNT))] {
            let pairs: Vec<[Market; 2]> = markets.iter().map(|market| [*market, market.dearer()]).collect();
            let over_rules = |pair: &[Market; 2]| both(pair.map(|m| rules_solve(m.floats, m.kind, LIMIT).to_bits()));
            let two_solves = |pair: &[Market; 2]| both(pair.each_ref().map(our_solve));
            let name = format!("bid_ask without trails, {what}");
            self.row_of_bits(&name, &pairs, our_bid_ask, two_solves, over_rules);
            let (mut trails, mut own_trails) = ([TRAIL; 2], [TRAIL; 2]);
            let ours = |pair: &[Market; 2]| our_bid_ask_with_trails(pair, &mut trails);
            let two_solves =
                |pair: &[Market; 2]| both([0, 1].map(|i| our_solve_with_trail(&pair[i], &mut own_trails[i])));
            self.row_of_bits(&format!("bid_ask with trails, {what}"), &pairs, ours, two_solves, over_rules);
        }
    }

    /// The live board's calls by themselves: the Rust has none. Each is promised to take less than a microsecond.
    fn board(&self) {
        if !self.wants("board") {
            return;
        }
        println!("\n| ns per call | ours | of 1 µs |");
        println!("|---|---:|---:|");
        board::rows(COUNT, |name, inputs, call| {
            if !self.wants(name) {
                return;
            }
            assert!(inputs.iter().all(|input| call(input) == 1), "{name}: another answer");
            let [ours] = measure(inputs, [&mut over(call)], self.effort);
            println!("| {name} | {ours:.1} | {:.2} |", ours / 1000.0);
        });
    }

    /// All digits of a root by themselves: the Rust has no such function.
    fn digits(&self) {
        let name = "sqrt_digits, 53 turns";
        if !self.wants(name) {
            return;
        }
        println!("\n| ns per call | ours |");
        println!("|---|---:|");
        let mut digits = |x: &[f64; 3]| bits::sqrt_digits(x[0].to_bits(), 53);
        let [ours] = measure(&inputs::arguments("sqrt", COUNT), [&mut over(&mut digits)], self.effort);
        println!("| {name} | {ours:.1} |");
    }

    /// Packed prices beside a plain form: the Rust has none.
    fn packed(&self) {
        if !self.wants("packed") {
            return;
        }
        println!("\n| ns per call | ours | plain Rust | ratio |");
        println!("|---|---:|---:|---:|");
        for (name, inputs, ours, plain) in packed::rows(COUNT) {
            if !self.wants(name) {
                continue;
            }
            assert!(inputs.iter().all(|input| ours(*input) == plain(*input)), "{name}: another answer");
            let sides: [clock::Side<u64>; 2] = [&mut over(|input| ours(*input)), &mut over(|input| plain(*input))];
            let [ours, plain] = measure(&inputs, sides, self.effort);
            println!("| {name} | {ours:.1} | {plain:.1} | {:.2} |", ours / plain);
        }
    }

    fn prices(&self, region: &str) {
        self.row(
            &format!("black, {region}"),
            &inputs::calls(region, COUNT),
            our_call,
            |x| rust_over_rules::lets_be_rational::black(x[0], x[1], x[2], x[3], rust_over_rules::OptionType::Call),
            |x| rust_over_std::lets_be_rational::black(x[0], x[1], x[2], x[3], rust_over_std::OptionType::Call),
        );
        self.row(
            &format!("normalised_black_call, {region}"),
            &inputs::region(region, COUNT),
            |x| bits::normalised_black_call(x[0].to_bits(), x[1].to_bits()).0,
            |x| rust_over_rules::lets_be_rational::black::normalised_black_call(x[0], x[1]),
            |x| rust_over_std::lets_be_rational::black::normalised_black_call(x[0], x[1]),
        );
        if region == REGIONS[2] {
            use {
                rust_over_rules::lets_be_rational::black as rules_side,
                rust_over_std::lets_be_rational::black as std_side,
            };
            // The same work with a float for an answer: the difference is what the answer that may refuse costs.
            self.row(
                "normalised_black_call, the rest, as a plain float",
                &inputs::region(region, COUNT),
                |x| {
                    let [x, s] = x.map(f64::to_bits);
                    bits::normalised_black_call_with_optimal_use_of_codys_functions(x, s)
                },
                |x| rules_side::normalised_black_call_with_optimal_use_of_codys_functions(x[0], x[1]),
                |x| std_side::normalised_black_call_with_optimal_use_of_codys_functions(x[0], x[1]),
            );
        }
    }

    fn elementary(&self) {
        use rust_over_rules::{elementary as rules, lets_be_rational as rules_side};
        use rust_over_std::lets_be_rational as std_side;
        let one = |name: &str, ours: fn(u64) -> u64, over_rules: fn(f64) -> f64, over_std: fn(f64) -> f64| {
            let inputs = inputs::arguments(name, COUNT);
            self.row(name, &inputs, |x| ours(x[0].to_bits()), |x| over_rules(x[0]), |x| over_std(x[0]));
        };
        one("erfc", bits::erfc, rules_side::cody::optimized::erfc, std_side::cody::optimized::erfc);
        one("exp", bits::exp, rules::exp, f64::exp);
        one("ln", bits::ln, rules::ln, f64::ln);
        one("sqrt", bits::sqrt, rules::sqrt, f64::sqrt);
        for name in ["mul_add, as in small t", "mul_add, any sign and size"] {
            self.row(
                name,
                &inputs::arguments(name, COUNT),
                |x| bits::mul_add(x[0].to_bits(), x[1].to_bits(), x[2].to_bits()),
                |x| rules::mul_add(x[0], x[1], x[2]),
                |x| x[0].mul_add(x[1], x[2]),
            );
        }
        for name in ["inverse_normal_cdf, p to 1", "inverse_normal_cdf, p to 0.1"] {
            use rules_side::normal_distribution::inverse_normal_cdf;
            let over_std = std_side::normal_distribution::inverse_normal_cdf;
            one(name, bits::inverse_normal_cdf, inverse_normal_cdf, over_std);
        }
        // One operation: what is left is the call border.
        one("abs", bits::abs, rules::abs, f64::abs);
    }

    fn listings(&self) {
        if !self.wants("relist") {
            return;
        }
        let Some(program) = listing::program() else {
            println!("\nno program target/bin/relist: its records were not measured");
            return;
        };
        println!("\n| records a second | relist | Rust over 01 | ratio | Rust over std | ratio |");
        println!("|---|---:|---:|---:|---:|---:|");
        for (name, markets) in [
            ("relist, branches 1 to 4 in equal parts", inputs::of_each_branch(self.records)),
            ("relist, quotes", inputs::quotes(self.records)),
        ] {
            match listing::seconds(&program, &markets, self.turns) {
                Ok(seconds) => {
                    let [ours, over_rules, over_std] = seconds.map(|s| markets.len() as f64 / s);
                    let ratio = [ours / over_rules, ours / over_std];
                    println!(
                        "| {name} | {ours:.0} | {over_rules:.0} | {:.2} | {over_std:.0} | {:.2} |",
                        ratio[0], ratio[1]
                    );
                }
                Err(e) => println!("| {name} | {e} |"),
            }
            println!("<!-- records by branch 0 to 5: {:?} -->", inputs::branches(&markets));
        }
    }

    /// What the crate's functions with the types of Rust do before each call, and the rows above do not.
    fn looks(&self) {
        if !self.wants("look") {
            return;
        }
        println!("\n| ns per call | without the look | with it | the look |");
        println!("|---|---:|---:|---:|");
        let turns = 20 * self.turns;
        let row = |name: &str, [without, with]: [f64; 2]| {
            println!("| {name}, the look | {without:.1} | {with:.1} | {:.1} |", with - without)
        };
        // The shortest solves: in longer ones some ns are lost.
        row("solve, branch 2, no small t", measure_look(&CLASSES[2].markets(COUNT), our_solve, turns));
        row("black, the rest", measure_look(&inputs::calls("the rest", COUNT), our_call, turns));
        row("exp", measure_look(&inputs::arguments("exp", COUNT), |x| bits::exp(x[0].to_bits()), turns));
    }
}

fn usage(problem: &str) -> ! {
    eprintln!("bench: {problem}\n{USAGE}");
    exit(2)
}

fn options() -> Bench {
    let mut bench = Bench { effort: clock::FULL, records: RECORDS, turns: 20, only: None };
    let mut words = env::args().skip(1);
    while let Some(word) = words.next() {
        match word.as_str() {
            "--quick" => bench = Bench { effort: clock::QUICK, records: RECORDS / 4, turns: 4, ..bench },
            "--only" => bench.only = Some(words.next().unwrap_or_else(|| usage("a part of a name is missing"))),
            // For `listings`, which runs this program again as the Rust's side.
            "--list" => {
                let side = words.next();
                let solve = match listing::RUST_SIDES.iter().position(|known| Some(*known) == side.as_deref()) {
                    Some(0) => rules_solve,
                    Some(_) => std_solve,
                    None => usage("no such side"),
                };
                if let Err(e) = listing::list(solve) {
                    eprintln!("bench: {e}");
                    exit(1);
                }
                exit(0)
            }
            _ => usage(&format!("`{word}` isn't known")),
        }
    }
    bench
}

fn main() {
    let bench = options();
    let Some(source) = rust_over_rules::SOURCE else {
        println!("no Rust source: there is nothing to compare with");
        bench.digits();
        bench.board();
        bench.packed();
        bench.looks();
        exit(3);
    };
    println!("Rust source {source}; {COUNT} inputs a row, limit {LIMIT}");
    if !cfg!(target_feature = "fma") {
        println!("built without the machine's fused multiply-add: the Rust calls the C library's");
    }
    if rust_over_rules::WITH_STEPS {
        println!("the Rust has the calls in it that lay its steps open: build this program alone");
    }
    println!("\n| ns per call | ours | Rust over 01 | ratio | Rust over std | ratio |");
    println!("|---|---:|---:|---:|---:|---:|");
    CLASSES.iter().for_each(|class| bench.solves(class));
    bench.between_the_caps();
    REGIONS.iter().for_each(|region| bench.prices(region));
    bench.elementary();
    bench.digits();
    bench.bid_ask();
    bench.board();
    bench.packed();
    bench.listings();
    bench.looks();
}
