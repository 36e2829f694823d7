//! Random inputs of the prices: markets as they occur, any bits, and what lies by single units beside the borders of the
//! regions.

use crate::{
    borders::{Border, EXPANSION, MONEYNESS, VOLATILITY},
    edges::{neighbour, PRICE_POINTS, SIGN},
    inputs::{float, near},
};
use random_words::Words;
use rust_over_rules::elementary::{exp, ln};

/// A few units up or down.
pub fn beside(words: &mut Words, x: f64) -> u64 {
    neighbour(x.to_bits(), words.between(-4, 4))
}

fn near_a_price_point(words: &mut Words) -> u64 {
    let x = words.choice(&PRICE_POINTS);
    near(words, x) | (words.any() & SIGN)
}

/// Above 0, every power of two from 2^low to 2^high with the same part.
pub fn log_uniform(words: &mut Words, low: i64, high: i64) -> f64 {
    let exponent = (words.between(low, high) + 1023) as u64;
    f64::from_bits(float(0, exponent, words.any()))
}

/// Zeros, subnormals, infinities, NaNs, negative numbers, and the ends of the normal numbers.
pub fn special(words: &mut Words) -> u64 {
    let fraction = words.any();
    let least = f64::MIN_POSITIVE.to_bits();
    let size = match words.below(7) {
        0 => 0,
        1 => (fraction >> 12) >> words.below(52),
        2 => f64::INFINITY.to_bits(),
        3 => float(0, 2047, fraction),
        4 => neighbour(least, words.between(-2, 2)),
        5 => neighbour(f64::MAX.to_bits(), words.between(-2, 1)),
        _ => words.any(),
    };
    size | (words.any() & SIGN)
}

/// x and s: out of the money mostly, as the functions map all else there.
pub fn money(words: &mut Words) -> [u64; 2] {
    let [x, s] = match words.below(16) {
        0 => [words.any(), words.any()],
        1 => [near_a_price_point(words), near_a_price_point(words)],
        2 => [special(words), log_uniform(words, -30, 4).to_bits()],
        3 => [(-log_uniform(words, -30, 4)).to_bits(), special(words)],
        4..=9 => {
            let s = match words.below(8) {
                0 => log_uniform(words, -1022, 1023),
                1 => log_uniform(words, -60, 60),
                _ => log_uniform(words, -8, 3),
            };
            let border = words.choice(&MONEYNESS);
            [beside(words, border(s)), beside(words, s)]
        }
        10 => {
            // 0.5 s at the end of the Taylor sum's region.
            let s = beside(words, 0.42264973081037427);
            [(-words.uniform(0.0, 8.0)).to_bits(), s]
        }
        11 => {
            // Where the exponential of −h²/2 leaves the normal numbers and then all.
            let s = log_uniform(words, -20, 2);
            [(-s * words.uniform(37.0, 39.0)).to_bits(), s.to_bits()]
        }
        12 => [(-log_uniform(words, -1022, 0)).to_bits(), log_uniform(words, -10, 4).to_bits()],
        _ => {
            let s = log_uniform(words, -10, 3);
            [(-s * words.uniform(0.0, 16.0)).to_bits(), s.to_bits()]
        }
    };
    [if words.below(4) == 0 { x ^ SIGN } else { x }, s]
}

/// h and t of the expansions.
pub fn expansion(words: &mut Words) -> [u64; 2] {
    match words.below(16) {
        0 => [words.any(), words.any()],
        1 => [near_a_price_point(words), near_a_price_point(words)],
        2 => [special(words), log_uniform(words, -30, 2).to_bits()],
        3 => [(-log_uniform(words, -30, 6)).to_bits(), special(words)],
        4..=8 => {
            let h = -10.0 - if words.below(4) == 0 { log_uniform(words, -50, 9) } else { words.uniform(0.0, 12.0) };
            let border = words.choice(&EXPANSION);
            [beside(words, h), beside(words, border(h))]
        }
        9 => [near(words, -10.0), log_uniform(words, -12, 0).to_bits()],
        10 => [(-words.uniform(0.0, 40.0)).to_bits(), near(words, 0.21132486540518713)],
        11..=13 => [(-words.uniform(10.0, 40.0)).to_bits(), log_uniform(words, -20, 1).to_bits()],
        _ => [words.uniform(-40.0, 12.0).to_bits(), log_uniform(words, -12, 3).to_bits()],
    }
}

/// A kind as document 01's byte; rarely one that is none.
pub fn kind(words: &mut Words) -> u64 {
    if words.below(64) == 0 {
        words.below(256)
    } else {
        1 + words.below(2)
    }
}

pub fn money_and_kind(words: &mut Words) -> [u64; 3] {
    let [x, s] = money(words);
    [x, s, kind(words)]
}

/// x beside the threshold of the Taylor sum, where the price has no other.
pub fn intrinsic(words: &mut Words) -> [u64; 2] {
    let x = match words.below(8) {
        0 | 1 => words.any(),
        2 => near_a_price_point(words),
        3 => near(words, 0.109375) | (words.any() & SIGN),
        4 => log_uniform(words, -1022, 11).to_bits() | (words.any() & SIGN),
        5 => log_uniform(words, -30, 0).to_bits() | (words.any() & SIGN),
        _ => words.uniform(-20.0, 20.0).to_bits(),
    };
    [x, kind(words)]
}

/// Forward and strike: a usual distance, near the money, far out, and any two.
pub fn forward_and_strike(words: &mut Words) -> (f64, f64) {
    let forward = log_uniform(words, -7, 14);
    match words.below(8) {
        0 => (forward, f64::from_bits(beside(words, forward))),
        1 => {
            let distance = log_uniform(words, -50, -3) * if words.below(2) == 0 { 1.0 } else { -1.0 };
            (forward, forward * (1.0 + distance))
        }
        2 => (forward, forward * exp(words.uniform(-30.0, 30.0))),
        3 => (log_uniform(words, -1022, 1023), log_uniform(words, -1022, 1023)),
        _ => (forward, forward * exp(words.uniform(-10.0, 10.0))),
    }
}

/// A market whose volatility lies at a border, which is given by the size of x out of the money.
pub fn market_on(words: &mut Words, border: Border) -> [u64; 5] {
    let (forward, strike) = forward_and_strike(words);
    let expiry = if words.below(4) == 0 { 1.0 } else { log_uniform(words, -9, 5) };
    let sigma = border(ln(forward / strike).abs()) / expiry.sqrt();
    let kind = 1 + words.below(2);
    [forward.to_bits(), strike.to_bits(), beside(words, sigma), expiry.to_bits(), kind]
}

pub fn market(words: &mut Words) -> [u64; 5] {
    match words.below(16) {
        0 => [words.any(), words.any(), words.any(), words.any(), kind(words)],
        1 => [words.any() & !SIGN, words.any() & !SIGN, words.any(), words.any() & !SIGN, kind(words)],
        2 => {
            // Some of the four have no price.
            let (forward, strike) = forward_and_strike(words);
            let mut all = [forward.to_bits(), strike.to_bits(), 0x3FD0 << 48, 0x3FF0 << 48, kind(words)];
            for _ in 0..=words.below(3) {
                all[words.below(4) as usize] = special(words);
            }
            all
        }
        3..=6 => {
            let border = words.choice(&VOLATILITY);
            market_on(words, border)
        }
        7 | 8 => {
            // The asymptotic expansion's, where 7 comes.
            let border = words.choice(&VOLATILITY[..2]);
            market_on(words, border)
        }
        _ => {
            let (forward, strike) = forward_and_strike(words);
            let sigma = match words.below(8) {
                0 => -words.uniform(0.0, 1.0),
                1 => log_uniform(words, -40, 6),
                _ => words.uniform(0.0, 2.0),
            };
            let expiry = if words.below(8) == 0 { log_uniform(words, -40, 20) } else { log_uniform(words, -9, 5) };
            [forward.to_bits(), strike.to_bits(), sigma.to_bits(), expiry.to_bits(), kind(words)]
        }
    }
}

// ---- the cubic

/// A number of the size that slopes and ordinates have, a zero, or any other.
fn plain(words: &mut Words) -> u64 {
    match words.below(16) {
        0 => words.any(),
        1 => special(words),
        2 => (words.between(-3, 3) as f64).to_bits(),
        3..=5 => log_uniform(words, -20, 20).to_bits() | (words.any() & SIGN),
        _ => words.uniform(-4.0, 4.0).to_bits(),
    }
}

/// The interval's ends: some width, one about f64::EPSILON, equal ends, or any two.
fn ends(words: &mut Words) -> [u64; 2] {
    let left = match words.below(4) {
        0 => 0.0,
        1 => 1.0,
        _ => words.uniform(-4.0, 4.0),
    };
    match words.below(8) {
        0 => [plain(words), plain(words)],
        1 => [left.to_bits(), beside(words, left)],
        2 => {
            let width = beside(words, f64::EPSILON) | (words.any() & SIGN);
            if words.below(2) == 0 {
                [0, width]
            } else {
                [left.to_bits(), (left + f64::from_bits(width)).to_bits()]
            }
        }
        _ => [left.to_bits(), (left + log_uniform(words, -40, 4)).to_bits()],
    }
}

pub fn cubic(words: &mut Words) -> [u64; 8] {
    if words.below(16) == 0 {
        return std::array::from_fn(|_| words.any());
    }
    let [x_l, x_r] = ends(words);
    let (low, high) = (f64::from_bits(x_l), f64::from_bits(x_r));
    let x = match words.below(8) {
        0 => plain(words),
        1 => beside(words, low),
        2 => beside(words, high),
        _ => (low + (high - low) * words.uniform(-0.1, 1.1)).to_bits(),
    };
    let r = match words.below(8) {
        0 => plain(words),
        1 => beside(words, 4.056481920730334e31),
        2 => beside(words, -(1.0 - 1.4901161193847656e-8)),
        3 => log_uniform(words, 0, 110).to_bits(),
        _ => words.uniform(-1.0, 20.0).to_bits(),
    };
    let mut all = [x, x_l, x_r, plain(words), plain(words), plain(words), plain(words), r];
    if words.below(32) == 0 {
        // Refused in the first three places, and only there.
        all[words.below(8) as usize] = f64::INFINITY.to_bits() | (words.any() & SIGN);
    }
    all
}

fn byte(words: &mut Words) -> u64 {
    if words.below(32) == 0 {
        words.below(256)
    } else {
        words.below(2)
    }
}

/// Two slopes around a third: convex, concave, monotonic, none of these, and with equal or vanishing ones.
fn slopes(words: &mut Words, s: f64) -> [u64; 2] {
    let other = |words: &mut Words| match words.below(8) {
        0 => plain(words),
        1 => beside(words, s),
        2 => s.to_bits(),
        3 => (-s).to_bits(),
        4 => 0,
        5 => (s + words.uniform(-2.0, 2.0)).to_bits(),
        6 => (s * words.uniform(0.0, 2.0)).to_bits(),
        _ => words.uniform(-4.0, 4.0).to_bits(),
    };
    [other(words), other(words)]
}

pub fn minimum(words: &mut Words) -> [u64; 4] {
    let s = plain(words);
    let [d_l, d_r] = slopes(words, f64::from_bits(s));
    [d_l, d_r, s, byte(words)]
}

/// The seven floats of the control parameters, with numerators and denominators that vanish.
fn control_floats(words: &mut Words) -> [u64; 7] {
    if words.below(16) == 0 {
        return std::array::from_fn(|_| words.any());
    }
    let [x_l, x_r] = ends(words);
    let (y_l, y_r) = (plain(words), plain(words));
    let h = f64::from_bits(x_r) - f64::from_bits(x_l);
    let [d_l, d_r] = slopes(words, (f64::from_bits(y_r) - f64::from_bits(y_l)) / h);
    let second = match words.below(4) {
        0 => plain(words),
        1 => (-(f64::from_bits(d_r) - f64::from_bits(d_l)) / h).to_bits(),
        2 => beside(words, -(f64::from_bits(d_r) - f64::from_bits(d_l)) / h),
        _ => words.uniform(-4.0, 4.0).to_bits(),
    };
    [x_l, x_r, y_l, y_r, d_l, d_r, second]
}

pub fn control(words: &mut Words) -> [u64; 8] {
    let [a, b, c, d, e, f, g] = control_floats(words);
    [a, b, c, d, e, f, g, byte(words)]
}

pub fn convex(words: &mut Words) -> [u64; 9] {
    let [a, b, c, d, e, f, g] = control_floats(words);
    [a, b, c, d, e, f, g, byte(words), byte(words)]
}

#[cfg(test)]
mod tests {
    use super::*;
    use gintubalos::probe::bits;

    /// How many of 100 000 inputs have the property.
    fn count<const N: usize>(inputs: fn(&mut Words) -> [u64; N], property: impl Fn([u64; N]) -> bool) -> usize {
        let mut words = Words::new(1, "count", 0);
        (0..100_000).map(|_| inputs(&mut words)).filter(|&all| property(all)).count()
    }

    /// Every region of the price, every pair of Cody's arms, and both sides of the money.
    #[test]
    fn money_reaches_every_region() {
        let of = |property: fn(f64, f64) -> bool| count(money, |[x, s]| property(f64::from_bits(x), f64::from_bits(s)));
        let asymptotic: fn(f64, f64) -> bool =
            |x, s| s > 0.0 && x < -10.0 * s && 0.5 * s * s + x < s * -9.788675134594813;
        assert!(of(asymptotic) > 5_000);
        assert!(of(|x, s| x <= 0.0 && x > -10.0 * s && 0.5 * s < 0.21132486540518713) > 5_000);
        assert!(of(|x, s| x <= 0.0 && x > -10.0 * s && 0.5 * s >= 0.21132486540518713) > 5_000);
        assert!(of(|x, s| x > 0.0 && s > 0.0) > 5_000);
        assert!(of(|_, s| s <= 0.0) > 500);
        assert!(of(|x, s| x.is_nan() || s.is_nan()) > 100);
        for (first, second) in [(true, true), (true, false), (false, true), (false, false)] {
            let arm = |[x, s]: [u64; 2]| {
                let (h, t) = (f64::from_bits(x) / f64::from_bits(s), 0.5 * f64::from_bits(s));
                let below = |z: f64| -std::f64::consts::FRAC_1_SQRT_2 * z < 0.46875;
                (below(h + t), below(h - t)) == (first, second)
            };
            assert!(count(money, arm) > 1_000, "{first} {second}");
        }
    }

    /// Every number that `black` and the expansions refuse with, and prices mostly.
    #[test]
    fn refusals_are_reached() {
        let number = |[a, b, c, d, kind]: [u64; 5]| bits::black(a, b, c, d, kind as u8).1;
        assert!(count(market, |all| number(all) == 0) > 70_000);
        for (refusal, least) in [(2, 1_000), (3, 1_000), (5, 500), (4, 500), (24, 200), (7, 1)] {
            assert!(count(market, |all| number(all) == refusal) >= least, "{refusal}");
        }
        let taylor = |[h, t]: [u64; 2]| bits::small_t_expansion_of_normalised_black_call(h, t).1;
        let series = |[h, t]: [u64; 2]| bits::asymptotic_expansion_of_normalised_black_call(h, t).1;
        for (answers, refusal) in
            [(count(expansion, |all| taylor(all) == 0), 8), (count(expansion, |all| series(all) == 0), 7)]
        {
            assert!((20_000..80_000).contains(&answers), "{refusal}: {answers}");
        }
    }

    /// The cubic's refusal, its middle, its curve and its straight line.
    #[test]
    fn cubic_reaches_every_case() {
        let of = |property: fn([f64; 8]) -> bool| count(cubic, |all| property(all.map(f64::from_bits)));
        assert!(of(|[x, x_l, x_r, ..]| x.is_infinite() || x_l.is_infinite() || x_r.is_infinite()) > 500);
        assert!(of(|[_, x_l, x_r, ..]| (x_r - x_l).abs() <= f64::EPSILON) > 5_000);
        assert!(of(|[_, x_l, x_r, .., r]| (x_r - x_l).abs() > f64::EPSILON && r < 4.056481920730334e31) > 20_000);
        assert!(of(|[_, x_l, x_r, .., r]| (x_r - x_l).abs() > f64::EPSILON && r >= 4.056481920730334e31) > 3_000);
    }
}
