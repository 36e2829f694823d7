//! The two caps of a price, forward and strike: fixed prices at them, between them and below both, and how often solves of
//! such prices were met. Rule set 0 caps a Call at the strike and a Put at the forward, rule set 1 the other way round.

use crate::{
    edges::neighbour,
    markets::Question,
    rule_sets::KNOWN,
    tally::{text_of_case, Case},
};
use gintubalos::bits::Outcome;
use std::collections::BTreeMap;

/// Where a price lies.
#[derive(Clone, Copy, PartialEq, Eq)]
pub enum Place {
    BelowBoth,
    Between,
    AboveBoth,
}

/// Where the question's price lies; none where one of its floats is a NaN.
pub fn place(question: Question) -> Option<Place> {
    let [price, forward, strike, _] = question.floats.map(f64::from_bits);
    if price.is_nan() || forward.is_nan() || strike.is_nan() {
        None
    } else if price < forward.min(strike) {
        Some(Place::BelowBoth)
    } else if price < forward.max(strike) {
        Some(Place::Between)
    } else {
        Some(Place::AboveBoth)
    }
}

/// Whether the option is worth something at once: between the caps rule set 1 comes to a loop there, and else it caps what
/// rule set 0 does not.
fn is_in_the_money(question: Question) -> bool {
    let [_, forward, strike, _] = question.floats.map(f64::from_bits);
    if question.kind == 1 {
        forward > strike
    } else {
        strike > forward
    }
}

// ---- what was met

/// A price by its cap: rule set, kind, in the money or out of it, the cap, and which side of it.
type Beside = (u32, &'static str, &'static str, &'static str, &'static str);

const KINDS: [&str; 2] = ["Call", "Put"];
const MONEY: [&str; 2] = ["out of the money", "in the money"];
const CAPS: [&str; 2] = ["forward", "strike"];
const SIDES: [&str; 3] = ["one float below", "at it", "one float above"];

/// What solves of known rule sets met, of those that no check refuses.
#[derive(Default)]
pub struct Counts {
    /// Prices between the caps under rule set 1, by whether they are in the money and by what came.
    between: BTreeMap<(&'static str, Case), u64>,
    beside: BTreeMap<Beside, u64>,
    /// Prices below both caps, asked under both rule sets, with the same volatility, outcome and trail.
    pub alike: u64,
}

impl Counts {
    pub fn add(&mut self, other: Counts) {
        for (case, count) in other.between {
            *self.between.entry(case).or_default() += count;
        }
        for (case, count) in other.beside {
            *self.beside.entry(case).or_default() += count;
        }
        self.alike += other.alike;
    }

    /// Counts a solve that no check refuses, and what came of it.
    pub fn count(&mut self, question: Question, outcome: Outcome) {
        let money = MONEY[usize::from(is_in_the_money(question))];
        if question.rule_set == 1 && place(question) == Some(Place::Between) {
            let case = (outcome.number, outcome.branch, outcome.ending, outcome.steps > 0);
            *self.between.entry((money, case)).or_default() += 1;
        }
        let [price, caps @ ..] = question.floats;
        for (cap, name) in caps.into_iter().zip(CAPS) {
            for (steps, side) in (-1..).zip(SIDES) {
                if price == neighbour(cap, steps) {
                    let kind = KINDS[usize::from(question.kind) - 1];
                    *self.beside.entry((question.rule_set, kind, money, name, side)).or_default() += 1;
                }
            }
        }
    }

    pub fn print(&self) {
        println!("prices between the two caps under rule set 1, by branch and ending or by the number of a refusal:");
        for (&(money, case), count) in &self.between {
            println!("  {money}, {}: {count}", text_of_case(case));
        }
        println!("prices by a cap, one float below it, at it, and one float above it:");
        for rule_set in KNOWN {
            for kind in KINDS {
                for (money, cap) in MONEY.into_iter().flat_map(|money| CAPS.map(|cap| (money, cap))) {
                    let of = |side| self.beside.get(&(rule_set, kind, money, cap, side)).copied().unwrap_or(0);
                    let [below, at, above] = SIDES.map(of);
                    println!("  rule set {rule_set}, {kind}, {money}, the {cap}: {below}, {at}, {above}");
                }
            }
        }
        println!("prices below both caps, the same under both rule sets: {}", self.alike);
    }

    /// What was to be met and was not. Between the caps no 6 and no 7 is known: a price there is at least the lesser cap, so
    /// that what is above its intrinsic value is 0 or far above what leads to the asymptotic expansion's edge.
    pub fn missing(&self) -> Vec<String> {
        let loops = (1..5).flat_map(|branch| [(branch, 1, true), (branch, 2, true), (branch, 2, false)]);
        let in_the_money =
            loops.chain([(0, 0, false)]).map(|(branch, ending, stepped)| (1, (0, branch, ending, stepped)));
        let between = in_the_money.chain([(0, (0, 0, 0, false))]).filter_map(|(money, case)| {
            let is_met = self.between.contains_key(&(MONEY[money], case));
            (!is_met).then(|| format!("between the caps {}: {}", MONEY[money], text_of_case(case)))
        });
        let mut beside = Vec::new();
        for rule_set in KNOWN {
            for kind in KINDS {
                for money in MONEY {
                    for (cap, side) in CAPS.into_iter().flat_map(|cap| SIDES.map(|side| (cap, side))) {
                        if !self.beside.contains_key(&(rule_set, kind, money, cap, side)) {
                            beside.push(format!("rule set {rule_set}, {kind} {money}, price by the {cap}, {side}"));
                        }
                    }
                }
            }
        }
        let alike = (self.alike == 0).then(|| "a price below both caps under both rule sets".to_string());
        between.chain(beside).chain(alike).collect()
    }
}

// ---- fixed questions

/// Forward and strike: some apart, equal ones, neighbours, and those that are farthest apart. Each is there either way round.
const OPTIONS: [[f64; 2]; 10] = [
    [200.0, 100.0],
    [103.0, 100.0],
    [150.0, 100.0],
    [7.0, 2.0],
    [4000.0, 1.0],
    [3e-5, 2e-9],
    [100.0, 100.0],
    [1.0 + f64::EPSILON, 1.0],
    [1e300, 1e-300],
    [f64::MAX, f64::MIN_POSITIVE],
];

/// Parts of what lies between two prices.
const PARTS: [f64; 12] = [1e-15, 1e-9, 1e-3, 0.02, 0.1, 0.3, 0.5, 0.7, 0.9, 0.98, 0.999, 1.0 - 1e-12];

/// Prices at either cap and beside it by one float, below both, between them, and between what the option is worth at the
/// least and at the most.
fn prices([forward, strike]: [f64; 2]) -> Vec<u64> {
    let (low, high) = (forward.min(strike), forward.max(strike));
    let beside = [forward, strike].into_iter().flat_map(|cap| [-1, 0, 1].map(|steps| neighbour(cap.to_bits(), steps)));
    let between = PARTS.map(|part| low + (high - low) * part);
    let worth = PARTS.map(|part| high - low + low * part);
    let others = [0.0, 0.5 * low, high - low].into_iter().chain(between).chain(worth);
    beside.chain(others.map(f64::to_bits)).collect()
}

/// The student's Call first.
pub fn fixed_questions() -> Vec<Question> {
    let mut all = vec![Question::new([120.0, 200.0, 100.0, 1.0], 1)];
    for [a, b] in OPTIONS {
        for option in [[a, b], [b, a]] {
            for (kind, expiry) in [(1, 1.0), (2, 1.0), (1, 4.0), (2, 0.25)] {
                let [forward, strike] = option.map(f64::to_bits);
                let of = |price| Question::of([price, forward, strike, f64::to_bits(expiry)], kind);
                all.extend(prices(option).into_iter().map(of));
            }
        }
    }
    all
}
