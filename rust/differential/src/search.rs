//! A directed search for refusals of `black`, `normalised_black_call` and solve: inputs are stepped by single units over
//! the borders of the expansions' regions. 7 comes at one of them; any other number, 8 among them, or another answer than
//! the Rust's is a fault.

use crate::{
    borders::{Border, MONEYNESS, VOLATILITY},
    edges::neighbour,
    functions::{Answer, Function, FUNCTIONS},
    inputs::{wide, Arguments},
    markets::Terms,
    prices::market_on,
    solves::solve,
    tally::Tally,
};
use random_words::Words;
use rust_over_rules::{book::STEP, elementary::ln, prices::normalised_black_call, solver};

/// So many units are stepped to either side.
const STEPS: i64 = 12;
/// So many refusals of a sort are shown.
const MOST_LINES: u64 = 12;

/// What a search of one function counts.
#[derive(Default)]
struct Counts {
    tries: u64,
    refusals: u64,
    faults: u64,
}

fn function(name: &str) -> &'static Function {
    FUNCTIONS.iter().find(|f| f.name == name).expect("it is in the table")
}

fn line(function: &Function, arguments: Arguments, answer: Answer) {
    let words: Vec<String> = arguments[..function.arguments].iter().map(|x| format!("{x:016X}")).collect();
    println!("{} {} {}", function.name, words.join(" "), answer.1);
}

impl Counts {
    /// Shows a refusal, up to MOST_LINES, and every fault.
    fn count(&mut self, function: &Function, arguments: Arguments) {
        let answer = (function.ours)(arguments);
        self.tries += 1;
        let fault = answer != (function.rust)(arguments) || answer.1 != 0 && answer.1 != 7;
        self.refusals += u64::from(answer.1 == 7);
        self.faults += u64::from(fault);
        if fault || answer.1 == 7 && self.refusals <= MOST_LINES {
            line(function, arguments, answer);
        }
    }

    fn report(&self, what: &str) {
        println!("{what}: {} tried, {} refused with 7, {} faults", self.tries, self.refusals, self.faults);
    }
}

/// Steps the volatility of markets over a border.
fn markets(border: Border, kind: u64, words: &mut Words, tries: u64) -> Counts {
    let black = function("black");
    let mut counts = Counts::default();
    while counts.tries < tries {
        let [forward, strike, sigma, expiry, _] = market_on(words, border);
        // A quotient of forward and strike that is infinite or 0 has no border.
        if !(1e-300..1e300).contains(&f64::from_bits(sigma)) {
            continue;
        }
        (-STEPS..=STEPS).for_each(|k| counts.count(black, wide([forward, strike, neighbour(sigma, k), expiry, kind])));
    }
    counts
}

/// Steps x over a border, or s where it is the border itself.
fn money(border: Option<Border>, words: &mut Words, tries: u64) -> Counts {
    let call = function("normalised_black_call");
    let mut counts = Counts::default();
    while counts.tries < tries {
        let random = f64::from_bits((1020 + words.below(5)) << 52 | words.any() >> 12);
        let (x, s) = border.map_or((-random, VOLATILITY[2](random)), |x_of| (x_of(random), random));
        for k in -STEPS..=STEPS {
            let (x, s) = (x.to_bits(), s.to_bits());
            counts.count(call, wide(if border.is_some() { [neighbour(x, k), s] } else { [x, neighbour(s, k)] }));
        }
    }
    counts
}

/// A price at which solve's guess is this s, or the first after it: the guess grows with the price.
fn price_of_guess(terms: &Terms, s: f64) -> u64 {
    let guess = |price| solver::solve(0, terms.at(price).market().ok()?, 1, None).steps.first().map(|step| step.s);
    let price = terms.price(s);
    let (mut low, mut high) = ((0.5 * price).to_bits(), (2.0 * price).to_bits());
    while low + 1 < high {
        let middle = low + (high - low) / 2;
        match guess(middle) {
            Some(guess) if guess < s => low = middle,
            // Without a step it is answered before a guess, or refused in the first step: the price that is looked for.
            _ => high = middle,
        }
    }
    high
}

/// Looks for an s of this market at the second border at which the price is refused, then for prices at which solve comes
/// to that s: those of its neighbours and what lies between, or, in the first step, those whose guess is there.
fn solves(at_the_guess: bool, words: &mut Words, tries: u64) -> Counts {
    let mut counts = Counts::default();
    while counts.tries < tries {
        let terms = Terms::any(words);
        let x = -ln(terms.forward / terms.strike).abs();
        let border = VOLATILITY[1](-x).to_bits();
        let mut near = (-STEPS..=STEPS).map(|k| neighbour(border, k));
        let Some(s) = near.find(|s| normalised_black_call(x, f64::from_bits(*s)) == Err(7)) else {
            continue;
        };
        let prices: Vec<u64> = if at_the_guess {
            let price = price_of_guess(&terms, f64::from_bits(s));
            (-STEPS..=STEPS).map(|k| neighbour(price, k)).collect()
        } else {
            let [low, high] = [-2, 2].map(|k| terms.price(f64::from_bits(neighbour(s, k))));
            (0..=2 * STEPS).map(|k| (low + (high - low) * (k as f64 / (2 * STEPS) as f64)).to_bits()).collect()
        };
        let before = counts.refusals;
        for price in prices {
            let question = terms.at(price);
            let mut tally = Tally::default();
            let outcome = solve(&mut tally, question, 20, 20 * STEP);
            counts.tries += 1;
            counts.refusals += u64::from(outcome.number == 7);
            let fault = tally.differences != 0 || outcome.number != 0 && outcome.number != 7;
            counts.faults += u64::from(fault);
            // One of a market is enough.
            if fault || outcome.number == 7 && counts.refusals == before + 1 && counts.refusals <= MOST_LINES {
                println!("solve {} {outcome:?}", question.text());
            }
        }
    }
    counts
}

/// Searches with this many inputs of each sort, and answers whether there was no fault.
pub fn search(seed: u64, tries: u64) -> bool {
    let mut words = Words::new(seed, "search", 0);
    let borders = ["h at -10", "t at |h| - 10 + 0.211..", "t at 0.211.."];
    let mut faults = 0;
    for (i, border) in borders.into_iter().enumerate() {
        let all = [
            ("black, Call", markets(VOLATILITY[i], 1, &mut words, tries)),
            ("black, Put", markets(VOLATILITY[i], 2, &mut words, tries)),
            ("normalised_black_call", money(MONEYNESS[..2].get(i).copied(), &mut words, tries)),
        ];
        for (what, counts) in all {
            counts.report(&format!("{what}, {border}"));
            faults += counts.faults;
        }
    }
    // A solve takes longer than a price.
    for (what, at_the_guess) in [("solve", false), ("solve, the first step", true)] {
        let counts = solves(at_the_guess, &mut words, tries / 10);
        counts.report(what);
        faults += counts.faults;
    }
    faults == 0
}
