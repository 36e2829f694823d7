//! Inputs from a fixed seed. A market's price is ours at a random volatility, and its class what our solve answers.

use gintubalos::{
    bits, black,
    probe::{exp, ln, normalised_black_call, normalised_vega, sqrt},
    OptionType,
};
use random_words::Words;

/// Below this half-volatility the Rust expands in small t.
const SMALL_T: f64 = 2.0 * 0.10566243270259357;

#[derive(Clone, Copy)]
pub struct Market {
    /// Price, forward, strike and expiry.
    pub floats: [f64; 4],
    pub kind: u8,
}

impl Market {
    pub fn bits(&self) -> [u64; 4] {
        self.floats.map(f64::to_bits)
    }

    /// The same option at a price that is one per cent higher.
    pub fn dearer(&self) -> Market {
        let [price, forward, strike, expiry] = self.floats;
        Market { floats: [1.01 * price, forward, strike, expiry], ..*self }
    }

    /// The branch that our solve takes, 0 also where it refuses.
    fn branch(&self) -> u8 {
        self.branch_under(0)
    }

    fn branch_under(&self, rule_set: u32) -> u8 {
        let [price, forward, strike, expiry] = self.bits();
        let (_, outcome) = bits::implied_volatility_from_a_transformed_rational_guess(
            price, forward, strike, expiry, self.kind, rule_set,
        );
        bits::Outcome::from(outcome).branch
    }
}

fn log_uniform(words: &mut Words, low: f64, high: f64) -> f64 {
    (low.ln() + (high.ln() - low.ln()) * words.unit()).exp()
}

/// The s at which the branches change, s_l, s_c and s_h, for an x below 0.
fn borders(x: f64) -> [f64; 3] {
    let s_c = sqrt(2.0 * x.abs());
    let b_c = normalised_black_call(x, s_c).unwrap_or(0.0);
    let v_c = normalised_vega(x, s_c);
    [s_c - b_c / v_c, s_c, s_c + (exp(0.5 * x) - b_c) / v_c]
}

/// The market in which ln(forward / strike) is x or −x, and the volatility over the expiry s.
fn market(words: &mut Words, x: f64, s: f64) -> Option<Market> {
    let forward = log_uniform(words, 50.0, 200.0);
    let strike = forward * (if words.below(2) == 0 { x } else { -x }).exp();
    let expiry = log_uniform(words, 0.02, 5.0);
    // One in four is in the money: the Rust's caps answer many of these before a guess.
    let out = if forward < strike { OptionType::Call } else { OptionType::Put };
    let kind = match (out, words.below(4)) {
        (OptionType::Call, 0) => OptionType::Put,
        (OptionType::Put, 0) => OptionType::Call,
        (out, _) => out,
    };
    let price = black(forward, strike, s / expiry.sqrt(), expiry, kind).ok()?;
    Some(Market { floats: [price, forward, strike, expiry], kind: kind.byte() })
}

/// What a class of markets for solve has: a branch, and where the prices lie that are computed on the way.
#[derive(Clone, Copy, PartialEq, Eq)]
pub enum Prices {
    Any,
    /// Those at s_l and s_c, and with them all between, in the small t expansion.
    SmallT,
    /// None of them.
    Cody,
}

pub struct Class {
    pub name: &'static str,
    pub branch: u8,
    pub prices: Prices,
}

pub const CLASSES: [Class; 8] = [
    Class { name: "branch 1", branch: 1, prices: Prices::Any },
    Class { name: "branch 2, small t", branch: 2, prices: Prices::SmallT },
    Class { name: "branch 2, no small t", branch: 2, prices: Prices::Cody },
    Class { name: "branch 3", branch: 3, prices: Prices::Any },
    Class { name: "branch 3, small t at s_c", branch: 3, prices: Prices::SmallT },
    Class { name: "branch 3, no small t", branch: 3, prices: Prices::Cody },
    Class { name: "branch 4", branch: 4, prices: Prices::Any },
    Class { name: "branch 5", branch: 5, prices: Prices::Any },
];

impl Class {
    fn has(&self, market: &Market) -> bool {
        if market.branch() != self.branch {
            return false;
        }
        let [_, forward, strike, _] = market.floats;
        let [s_l, s_c, _] = borders(-ln(forward / strike).abs());
        match self.prices {
            Prices::Any => true,
            Prices::SmallT => 0.5 * s_c < SMALL_T,
            Prices::Cody => 0.5 * if self.branch == 3 { s_c } else { s_l } >= SMALL_T,
        }
    }

    /// Fewer, or none, where not enough are found.
    pub fn markets(&self, count: usize) -> Vec<Market> {
        let mut words = Words::new(1, self.name, 0);
        let mut found = Vec::new();
        for _ in 0..100 * count {
            if found.len() == count {
                break;
            }
            // Branch 5 is met far from the money alone.
            let x = -if self.branch == 5 {
                log_uniform(&mut words, 1.0, 200.0)
            } else {
                log_uniform(&mut words, 0.002, 3.0)
            };
            let [s_l, s_c, s_h] = borders(x);
            let s = match self.branch {
                1 => words.uniform(0.2, 1.0) * s_l,
                2 => words.uniform(s_l, s_c),
                3 => words.uniform(s_c, s_h),
                4 => words.uniform(1.0, 1.5) * s_h,
                _ => words.uniform(1.0, 1.1) * s_h,
            };
            found.extend(market(&mut words, x, s).filter(|m| self.has(m)));
        }
        found
    }
}

/// The classes' markets in turn, so that branches 1 to 4 have equal parts.
pub fn of_each_branch(count: usize) -> Vec<Market> {
    let each: Vec<Vec<Market>> = [0, 3, 6].map(|k| CLASSES[k].markets(count / 4)).into();
    let middle = Class { name: "branch 2", branch: 2, prices: Prices::Any }.markets(count / 4);
    (0..count).map(|i| [&each[0], &middle, &each[1], &each[2]][i % 4][i / 4]).collect()
}

/// As a board of quotes has them: strikes within a fifth or so, volatilities of 10 to 60 % and up to two years.
pub fn quotes(count: usize) -> Vec<Market> {
    let mut words = Words::new(1, "quotes", 0);
    let mut found = Vec::new();
    while found.len() < count {
        let forward = words.uniform(50.0, 200.0);
        let expiry = words.uniform(0.05, 2.0);
        let sigma = words.uniform(0.1, 0.6);
        let strike = forward * (words.uniform(-1.5, 1.5) * sigma * expiry.sqrt()).exp();
        let kind = if forward < strike { OptionType::Call } else { OptionType::Put };
        if let Ok(price) = black(forward, strike, sigma, expiry, kind) {
            found.push(Market { floats: [price, forward, strike, expiry], kind: kind.byte() });
        }
    }
    found
}

/// Prices in the money that are at least the lesser one of forward and strike, and below the greater one: rule set 0 caps
/// them all, and rule set 1 comes to a loop.
pub fn between_the_caps(count: usize) -> Vec<Market> {
    let mut words = Words::new(1, "between the caps", 0);
    let mut found = Vec::new();
    while found.len() < count {
        let x = -words.uniform(0.7, 3.0);
        let [s_l, _, s_h] = borders(x);
        let s = words.uniform(0.5 * s_l, 1.2 * s_h);
        found.extend(market(&mut words, x, s).filter(|m| {
            let [price, forward, strike, _] = m.floats;
            price >= forward.min(strike) && price < forward.max(strike) && m.branch_under(1) != 0
        }));
    }
    found
}

/// How many of the markets each branch has.
pub fn branches(markets: &[Market]) -> [usize; 6] {
    let mut counts = [0; 6];
    markets.iter().for_each(|m| counts[usize::from(m.branch())] += 1);
    counts
}

pub const REGIONS: [&str; 3] = ["asymptotic", "small t", "the rest"];

/// x and s in a region of normalised_black_call.
pub fn region(name: &str, count: usize) -> Vec<[f64; 2]> {
    let mut words = Words::new(1, name, 0);
    let mut draw = || {
        let (h, t) = match name {
            "asymptotic" => (words.uniform(-30.0, -10.5), words.uniform(0.001, 0.2)),
            "small t" => (words.uniform(-8.0, 0.0), words.uniform(0.001, 0.21)),
            _ => (words.uniform(-5.0, 0.0), words.uniform(0.22, 2.0)),
        };
        [h * 2.0 * t, 2.0 * t]
    };
    (0..count).map(|_| draw()).collect()
}

/// Forward, strike, sigma and expiry of a call out of the money in a region.
pub fn calls(name: &str, count: usize) -> Vec<[f64; 4]> {
    let mut words = Words::new(1, name, 1);
    let mut call = |[x, s]: [f64; 2]| {
        let forward = log_uniform(&mut words, 50.0, 200.0);
        let expiry = log_uniform(&mut words, 0.02, 5.0);
        [forward, forward * (-x).exp(), s / expiry.sqrt(), expiry]
    };
    region(name, count).into_iter().map(&mut call).collect()
}

/// Arguments of the elementary functions, by the row's name.
pub fn arguments(name: &str, count: usize) -> Vec<[f64; 3]> {
    let mut words = Words::new(1, name, 0);
    let mut draw = || {
        let w = &mut words;
        match name {
            "erfc" => [w.uniform(-4.0, 6.0), 0.0, 0.0],
            "exp" => [w.uniform(-30.0, 3.0), 0.0, 0.0],
            "ln" => [log_uniform(w, 1e-6, 1e2), 0.0, 0.0],
            "sqrt" => [log_uniform(w, 1e-3, 1e3), 0.0, 0.0],
            // What the small t expansion has: a factor up to 1, a positive one, and less.
            "mul_add, as in small t" => [w.unit(), w.uniform(3.0, 1000.0), w.uniform(-1000.0, -1.0)],
            "mul_add, any sign and size" => [(); 3].map(|()| {
                let size = log_uniform(w, 1e-9, 1e9);
                if w.below(2) == 0 {
                    size
                } else {
                    -size
                }
            }),
            "inverse_normal_cdf, p to 1" => [w.unit(), 0.0, 0.0],
            _ => [log_uniform(w, 1e-12, 0.1), 0.0, 0.0],
        }
    };
    (0..count).map(|_| draw()).collect()
}
