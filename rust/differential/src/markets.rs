//! Markets for solve: prices of known volatilities in every branch, prices beside the borders at which a branch or an
//! answer changes, and what is refused.

use crate::{
    borders::VOLATILITY,
    causes::some_set,
    edges::{neighbour, SIGN},
    prices::{beside, forward_and_strike, kind, log_uniform, market_on, special},
    rule_sets,
};
use random_words::Words;
use rust_over_rules::elementary::{exp, ln, sqrt};
use rust_over_rules::prices::{black, normalised_black_call, normalised_vega};
use rust_over_rules::{book::kind_of, rule_set::RuleSet, solver::Market};

/// What solve is asked, as it crosses to the archive: price, forward, strike and expiry as bits, the kind's byte, and the
/// rule set's number.
#[derive(Clone, Copy)]
pub struct Question {
    pub floats: [u64; 4],
    pub kind: u8,
    pub rule_set: u32,
}

impl Question {
    /// Under rule set 0.
    pub fn of(floats: [u64; 4], kind: u8) -> Question {
        Question { floats, kind, rule_set: 0 }
    }

    pub fn new(floats: [f64; 4], kind: u8) -> Question {
        Question::of(floats.map(f64::to_bits), kind)
    }

    pub fn under(self, rule_set: u32) -> Question {
        Question { rule_set, ..self }
    }

    /// As `rust_over_rules` takes it; a kind that is none has 24, but an unknown rule set 32 before.
    pub fn market(&self) -> Result<Market, u8> {
        let [price, forward, strike, expiry] = self.floats.map(f64::from_bits);
        RuleSet::of(self.rule_set)?;
        Ok(Market { price, forward, strike, expiry, kind: kind_of(self.kind).ok_or(24)? })
    }

    pub fn text(&self) -> String {
        text(&self.floats, self.kind, self.rule_set)
    }
}

/// The floats in hexadecimal digits, the kind's byte, and the rule set.
pub fn text(floats: &[u64], kind: u8, rule_set: u32) -> String {
    let words: Vec<String> = floats.iter().map(|x| format!("{x:016X}")).collect();
    format!("{}, {kind}, rule set {rule_set}", words.join(", "))
}

/// The kind that is worth nothing at once.
fn out_of_the_money(forward: f64, strike: f64) -> u8 {
    if forward < strike {
        1
    } else {
        2
    }
}

/// Out of the money mostly: rule set 0's caps answer most prices in the money before a guess.
fn some_kind(words: &mut Words, forward: f64, strike: f64) -> u8 {
    let out_of_the_money = out_of_the_money(forward, strike);
    if words.below(4) == 0 {
        3 - out_of_the_money
    } else {
        out_of_the_money
    }
}

/// An option without its price.
pub struct Terms {
    pub forward: f64,
    pub strike: f64,
    expiry: f64,
    kind: u8,
}

impl Terms {
    pub fn any(words: &mut Words) -> Terms {
        let (forward, strike) = match words.below(16) {
            0 => {
                let forward = log_uniform(words, -1022, 1023);
                (forward, forward)
            }
            1 => {
                let forward = log_uniform(words, -7, 14);
                (forward, f64::from_bits(beside(words, forward)))
            }
            _ => forward_and_strike(words),
        };
        let expiry = match words.below(8) {
            0 => 1.0,
            1 => log_uniform(words, -1022, 1023),
            _ => log_uniform(words, -9, 5),
        };
        Terms { forward, strike, expiry, kind: some_kind(words, forward, strike) }
    }

    fn intrinsic(&self) -> f64 {
        let less = if self.kind == 1 { self.forward - self.strike } else { self.strike - self.forward };
        less.max(0.0)
    }

    /// What a price out of the money can't reach.
    fn cap(&self) -> f64 {
        self.forward.min(self.strike)
    }

    pub fn at(&self, price: u64) -> Question {
        Question::of([price, self.forward.to_bits(), self.strike.to_bits(), self.expiry.to_bits()], self.kind)
    }

    /// The price of a volatility over the expiry; 0 where that has none.
    pub fn price(&self, s: f64) -> f64 {
        let kind = kind_of(self.kind).expect("a kind");
        black(self.forward, self.strike, s / self.expiry.sqrt(), self.expiry, kind).unwrap_or(0.0)
    }

    /// The s at which the Rust's branches change: s_l, s_c and s_h.
    fn borders(&self) -> [f64; 3] {
        let x = -ln(self.forward / self.strike).abs();
        let s_c = sqrt(2.0 * x.abs());
        let b_c = normalised_black_call(x, s_c).unwrap_or(0.0);
        let v_c = normalised_vega(x, s_c);
        [s_c - b_c / v_c, s_c, s_c + (exp(0.5 * x) - b_c) / v_c]
    }
}

/// A price of a volatility that lies in a branch's own interval, or beside its ends.
pub fn in_a_branch(words: &mut Words) -> Question {
    let terms = Terms::any(words);
    in_a_branch_of(words, terms)
}

fn in_a_branch_of(words: &mut Words, terms: Terms) -> Question {
    let [s_l, s_c, s_h] = terms.borders();
    let part = words.unit();
    let s = match words.below(8) {
        0 => s_l * part,
        1 => s_l * log_uniform(words, -12, -1),
        2 => s_l + (s_c - s_l) * part,
        3 => s_c + (s_h - s_c) * part,
        4 => s_h * (1.0 + 2.0 * part),
        5 => s_h * (1.0 + 20.0 * part),
        _ => f64::from_bits(beside(words, [s_l, s_c, s_h][(3.0 * part) as usize])),
    };
    let price = terms.price(s);
    let steps = if words.below(4) == 0 { words.between(-4, 4) } else { 0 };
    terms.at(neighbour(price.to_bits(), steps))
}

/// A price beside the intrinsic value, the caps, half of what is between, and 0.
fn beside_a_border(words: &mut Words) -> Question {
    let terms = Terms::any(words);
    let (low, cap) = (terms.intrinsic(), terms.cap());
    let price = words.choice(&[low, low + cap, low + 0.5 * cap, terms.forward, terms.strike, cap, 0.0]);
    let steps = words.between(-4, 4);
    terms.at(neighbour(price.to_bits(), steps))
}

/// In the money, where the two caps part: a price of a volatility in a branch, which mostly lies between them; any price
/// between them; and one beside a cap. Some are out of the money.
fn by_the_caps(words: &mut Words) -> Question {
    let terms = Terms::any(words);
    let out_of_the_money = out_of_the_money(terms.forward, terms.strike);
    let kind = if words.below(8) == 0 { out_of_the_money } else { 3 - out_of_the_money };
    let terms = Terms { kind, ..terms };
    let (low, high) = (terms.cap(), terms.forward.max(terms.strike));
    match words.below(8) {
        0 => terms.at((low + (high - low) * words.unit()).to_bits()),
        1 => terms.at(neighbour(words.choice(&[low, high]).to_bits(), words.between(-1, 1))),
        _ => in_a_branch_of(words, terms),
    }
}

/// A part of the cap above the intrinsic value: any, a tiny one, or nearly all of it.
fn part_of_the_cap(words: &mut Words) -> Question {
    let terms = Terms::any(words);
    let part = match words.below(8) {
        0..=2 => words.unit(),
        3 => log_uniform(words, -1022, -1),
        4 => log_uniform(words, -60, -1),
        5 => 1.0 - log_uniform(words, -53, -1),
        6 => f64::from_bits(1 + words.below(8)),
        _ => words.uniform(0.78, 0.9),
    };
    terms.at((terms.intrinsic() + terms.cap() * part).to_bits())
}

/// Forward and strike of every size, 300 decimal places apart at most.
fn far_apart(words: &mut Words) -> Question {
    let (forward, strike) = (log_uniform(words, -1022, 1023), log_uniform(words, -1022, 1023));
    let terms = Terms { forward, strike, expiry: log_uniform(words, -9, 5), kind: some_kind(words, forward, strike) };
    let price = match words.below(4) {
        0 => terms.price(log_uniform(words, -3, 6)),
        1 => terms.cap() * words.unit(),
        2 => terms.cap() * log_uniform(words, -1022, -1),
        _ => terms.price(terms.borders()[1] * words.uniform(0.2, 2.0)),
    };
    terms.at(price.to_bits())
}

/// A volatility at a border of the asymptotic expansion's region, where 7 comes.
fn at_a_seven(words: &mut Words) -> Question {
    let border = words.choice(&[VOLATILITY[0], VOLATILITY[1], VOLATILITY[1], VOLATILITY[1]]);
    let [forward, strike, sigma, expiry, kind] = market_on(words, border);
    let [forward, strike, sigma, expiry] = [forward, strike, sigma, expiry].map(f64::from_bits);
    let terms = Terms { forward, strike, expiry, kind: kind as u8 };
    let price = terms.price(sigma * expiry.sqrt());
    let steps = words.between(-2, 2);
    terms.at(neighbour(price.to_bits(), steps))
}

/// Some of the four are refused, and some kinds.
fn with_refusals(words: &mut Words) -> Question {
    let mut question = in_a_branch(words);
    for _ in 0..words.below(3) {
        question.floats[words.below(4) as usize] = special(words);
    }
    question.kind = kind(words) as u8;
    question
}

/// Under either rule set and sometimes under an unknown one: what `random_question` has, prices by the caps, and questions
/// of which most have two causes of a refusal.
pub fn any_question(words: &mut Words) -> Question {
    match words.below(16) {
        0..=2 => by_the_caps(words).under(rule_sets::any(words)),
        3 => {
            let question = in_a_branch(words);
            some_set(words, question)
        }
        _ => random_question(words).under(rule_sets::any(words)),
    }
}

/// Under rule set 0.
pub fn random_question(words: &mut Words) -> Question {
    match words.below(32) {
        0 => Question::of(std::array::from_fn(|_| words.any()), kind(words) as u8),
        1 => Question::of(std::array::from_fn(|_| words.any() & !SIGN), kind(words) as u8),
        2 | 3 => with_refusals(words),
        4 => at_a_seven(words),
        5..=8 => beside_a_border(words),
        9..=13 => part_of_the_cap(words),
        14..=16 => far_apart(words),
        _ => in_a_branch(words),
    }
}

/// A limit: mostly small, some that no trail has room for.
pub fn limit(words: &mut Words) -> i32 {
    match words.below(32) {
        0 => words.choice(&[i32::MIN, -1, i32::MAX, 1 << 30]),
        1 => words.any() as i32,
        2 | 3 => 0,
        4..=6 => 1,
        7..=9 => 3,
        10..=12 => 5,
        13..=15 => 20,
        16 => 200,
        17..=19 => words.below(40) as i32,
        _ => 2,
    }
}
