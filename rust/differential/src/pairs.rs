//! Calls of bid and ask: pairs of prices of one option, equal ones, neighbours and others, a limit, and two trails.

use crate::{
    books::is_bounded,
    borders::{KINDS, NAN},
    caps, causes,
    compare::combine,
    edges::{neighbour, INFINITY, SIGN},
    inputs::{power, wide},
    markets::{any_question, in_a_branch, limit, random_question, text, Question},
    prices::log_uniform,
    rule_sets::{self, UNKNOWN},
    sevens,
    solves::{fixed_questions, room, trail_bytes},
};
use random_words::Words;
use rust_over_rules::{bid_ask::Range, book::kind_of, rule_set::RuleSet};

/// Two prices of an option, as they cross to the archive: the low one, the high one, forward, strike and expiry as bits, the
/// kind's byte, and the rule set's number.
#[derive(Clone, Copy)]
pub struct Pair {
    pub floats: [u64; 5],
    pub kind: u8,
    pub rule_set: u32,
}

impl Pair {
    /// The question's option with these prices, under its rule set.
    pub fn new(question: Question, [low, high]: [u64; 2]) -> Pair {
        let [_, forward, strike, expiry] = question.floats;
        let Question { kind, rule_set, .. } = question;
        Pair { floats: [low, high, forward, strike, expiry], kind, rule_set }
    }

    pub fn under(self, rule_set: u32) -> Pair {
        Pair { rule_set, ..self }
    }

    /// As `rust_over_rules` takes it; a kind that is none has 24, but an unknown rule set 32 before.
    pub fn range(&self) -> Result<Range, u8> {
        let [low, high, forward, strike, expiry] = self.floats.map(f64::from_bits);
        RuleSet::of(self.rule_set)?;
        Ok(Range { low, high, forward, strike, expiry, kind: kind_of(self.kind).ok_or(24)? })
    }

    /// What the single call is asked.
    pub fn ends(&self) -> [Question; 2] {
        let [low, high, forward, strike, expiry] = self.floats;
        [low, high].map(|price| Question::of([price, forward, strike, expiry], self.kind).under(self.rule_set))
    }
}

/// What is asked: two prices, a limit, and the bytes of the low trail and of the high one, or no trails.
#[derive(Clone, Copy)]
pub struct Call {
    pub pair: Pair,
    pub limit: i32,
    pub trails: Option<[usize; 2]>,
}

impl Call {
    pub fn text(&self) -> String {
        let trails = self.trails.map_or(String::new(), |[low, high]| format!(", {low} and {high} bytes"));
        format!("{}, {}{trails}", text(&self.pair.floats, self.pair.kind, self.pair.rule_set), self.limit)
    }
}

/// The lesser one first.
fn in_order([a, b]: [u64; 2]) -> [u64; 2] {
    if f64::from_bits(a) > f64::from_bits(b) {
        [b, a]
    } else {
        [a, b]
    }
}

/// The lesser one first, and sometimes the other.
fn mostly_in_order(words: &mut Words, prices: [u64; 2]) -> [u64; 2] {
    let [low, high] = in_order(prices);
    if words.below(16) == 0 {
        [high, low]
    } else {
        [low, high]
    }
}

/// A price that is larger or smaller by a part of itself.
fn apart(words: &mut Words, price: u64, least: i64) -> u64 {
    let part = log_uniform(words, least, -2) * words.choice(&[1.0, -1.0]);
    (f64::from_bits(price) * (1.0 + part)).to_bits()
}

/// What an option in the money is worth at the least.
fn intrinsic(question: Question) -> u64 {
    let [_, forward, strike, _] = question.floats.map(f64::from_bits);
    (forward - strike).abs().to_bits()
}

// ---- random calls

/// A price, and one that it is or that is near it, far from it, at a sentinel, or another option's; or two zeros.
fn random_pair(words: &mut Words) -> Pair {
    let question = any_question(words);
    let [price, forward, strike, _] = question.floats;
    let other = match words.below(16) {
        0 | 1 => price,
        2 | 3 => neighbour(price, words.choice(&[-1, 1])),
        4 | 5 => neighbour(price, words.between(-4, 4)),
        // As sheets have them.
        6..=9 => apart(words, price, -12),
        10 | 11 => apart(words, price, -50),
        12 | 13 => {
            let border = words.choice(&[0, forward | SIGN, intrinsic(question), forward, strike]);
            neighbour(border, words.between(-4, 4))
        }
        14 => random_question(words).floats[0],
        _ => return Pair::new(question, [words.any() & SIGN, words.any() & SIGN]),
    };
    Pair::new(question, mostly_in_order(words, [price, other]))
}

/// A price at which solve meets 7, and one near it. The option is a fixed one in another unit, a power of four: its root is
/// exact, so that no step changes. The expiry counts after the steps alone.
fn beside_a_seven(words: &mut Words) -> Call {
    let [price, forward, strike, _, kind] = words.choice(&sevens::SOLVES);
    let unit = power(2 * words.between(-20, 20));
    let [price, forward, strike] = [price, forward, strike].map(|x| (f64::from_bits(x) * unit).to_bits());
    let other = match words.below(2) {
        0 => neighbour(price, words.between(-4, 4)),
        _ => apart(words, price, -50),
    };
    let expiry = log_uniform(words, -9, 5).to_bits();
    let question = Question::of([price, forward, strike, expiry], kind as u8).under(rule_sets::any(words));
    let pair = Pair::new(question, mostly_in_order(words, [price, other]));
    // 7 comes after five steps at most.
    let limit = words.choice(&[1, 2, 6, 6, 20, 20, 20, 200]);
    with_trails(words, pair, limit)
}

fn with_trails(words: &mut Words, pair: Pair, limit: i32) -> Call {
    Call { pair, limit, trails: Some([trail_bytes(words, limit), trail_bytes(words, limit)]) }
}

/// Mostly the infinity of this sign.
fn not_finite(words: &mut Words, sign: u64) -> u64 {
    words.choice(&[INFINITY | sign, INFINITY | sign, INFINITY | (sign ^ SIGN), NAN])
}

/// A call that has two of the ten causes of a refusal, or one, and no other.
fn refused(words: &mut Words) -> Call {
    let causes = [words.below(10), words.below(10)];
    with_causes(words, |cause| causes.contains(&(cause as u64)))
}

/// A call that has these causes of a refusal, in the order of the checks, and no other.
pub fn with_causes(words: &mut Words, has: impl Fn(usize) -> bool) -> Call {
    let question = in_a_branch(words);
    let price = question.floats[0];
    let mut pair = Pair::new(question, [price, neighbour(price, words.between(1, 1000))]);
    let limit = words.between(1, 5) as i32;
    let mut trails = [room(limit); 2];
    pair.rule_set = if has(0) { words.choice(&UNKNOWN) } else { rule_sets::known(words.any()) };
    if has(1) {
        pair.kind = words.choice(&causes::KINDS);
    }
    // Low above high comes first: an infinity in its place leaves it so.
    if has(4) {
        pair.floats.swap(0, 1);
    }
    for (i, sign) in [(0, 0), (1, SIGN)] {
        if has(2 + i) {
            pair.floats[i] = not_finite(words, sign);
        }
        if has(8 + i) {
            let less = if words.below(4) == 0 { words.below(trails[i] as u64) as usize } else { 0 };
            trails[i] -= 1 + less;
        }
    }
    let least = f64::MIN_POSITIVE.to_bits();
    for i in (2..5).filter(|i| has(3 + i)) {
        pair.floats[i] = words.choice(&[0, SIGN, 1, least - 1, INFINITY, INFINITY | SIGN, NAN, pair.floats[i] | SIGN]);
    }
    Call { pair, limit, trails: Some(trails) }
}

pub fn random_call(words: &mut Words) -> Call {
    match words.below(8) {
        0 | 1 => refused(words),
        2 => beside_a_seven(words),
        _ => {
            let (pair, limit) = (random_pair(words), limit(words));
            with_trails(words, pair, limit)
        }
    }
}

/// A limit of many millions is only where both runs end for another cause.
pub fn random_call_without_trails(words: &mut Words) -> Call {
    let Call { pair, limit, .. } = random_call(words);
    Call { pair, limit: if is_bounded_pair(pair, limit) { limit } else { 2 }, trails: None }
}

pub fn is_bounded_pair(pair: Pair, limit: i32) -> bool {
    pair.ends().into_iter().all(|question| is_bounded(question, limit))
}

// ---- fixed calls

/// Every combination of prices that are refused, or just not, of usual and of extreme ones, with options of which some are
/// refused, too.
pub fn combinations(mut each: impl FnMut(Pair)) {
    let one = 1.0_f64.to_bits();
    let prices = [0, 1, one, one + 1, 50.0_f64.to_bits(), 150.0_f64.to_bits(), f64::MAX.to_bits(), INFINITY];
    let prices: Vec<u64> = prices.into_iter().flat_map(|x| [x, x | SIGN]).chain([NAN]).collect();
    let least = f64::MIN_POSITIVE.to_bits();
    let sizes = [100.0_f64.to_bits(), least, f64::MAX.to_bits(), least - 1, one | SIGN, INFINITY, NAN].to_vec();
    let expiries = [0.25_f64.to_bits(), least, f64::MAX.to_bits(), 0, INFINITY, NAN].to_vec();
    let values = [prices.clone(), prices, sizes.clone(), sizes, expiries, KINDS.to_vec()];
    combine(&values, 0, &mut wide([]), &mut |[low, high, forward, strike, expiry, kind, ..]| {
        each(Pair { floats: [low, high, forward, strike, expiry], kind: kind as u8, rule_set: 0 });
    });
}

/// Each fixed question's price beside its neighbours, the zeros, the sentinels, and prices that are larger and smaller.
pub fn fixed_pairs() -> Vec<Pair> {
    let pairs = |question: Question| {
        let [price, forward, strike, _] = question.floats;
        let neighbours = (-4..=4).map(move |steps| neighbour(price, steps));
        let factors = [0.5, 0.99, 1.01, 2.0].map(|factor| (f64::from_bits(price) * factor).to_bits());
        let far = [0, SIGN, forward | SIGN, neighbour(intrinsic(question), -1), forward, strike, f64::MAX.to_bits()];
        let others = neighbours.chain(factors).chain(far);
        others.map(move |other| Pair::new(question, in_order([price, other])))
    };
    let zeros = Pair::new(fixed_questions()[0], [0, SIGN]);
    fixed_questions().into_iter().flat_map(pairs).chain([zeros]).collect()
}

/// Neighbouring prices by the caps, the least and the greatest of each option, and those about the middle.
pub fn pairs_by_the_caps() -> Vec<Pair> {
    let all = caps::fixed_questions();
    let options = all.chunk_by(|a, b| (&a.floats[1..], a.kind) == (&b.floats[1..], b.kind));
    let pairs = options.flat_map(|prices| {
        let mut sorted = prices.to_vec();
        sorted.sort_by(|a, b| f64::from_bits(a.floats[0]).total_cmp(&f64::from_bits(b.floats[0])));
        let last = sorted.len() - 1;
        let far = [[0, last], [last / 4, last / 2], [last / 2, 3 * last / 4], [0, last / 2]];
        let near = (0..last).map(|i| [i, i + 1]);
        near.chain(far).map(|pair| Pair::new(sorted[0], pair.map(|i| sorted[i].floats[0]))).collect::<Vec<_>>()
    });
    pairs.collect()
}
