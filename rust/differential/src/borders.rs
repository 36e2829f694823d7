//! The borders of the prices' regions: where they lie, and fixed inputs on them and beside them by single units.

use crate::{
    edges::{edges, neighbour, INFINITY, POINTS, PRICE_POINTS, SIGN},
    inputs::{power, wide, Arguments},
    sevens,
};
use rust_over_rules::elementary::ln;
use std::f64::consts::SQRT_2;

/// Twice the sixteenth root of f64::EPSILON: the Taylor sum's region ends at this t.
const SMALL_T: f64 = 0.21132486540518713;
/// Cody's threshold in h + t or h − t.
const CODY: f64 = 0.46875 * SQRT_2;
const SQRT_DBL_MIN: f64 = 1.4916681462400413e-154;

pub type Border = fn(f64) -> f64;

/// The x at which a border lies, by s.
pub const MONEYNESS: [Border; 6] = [
    |s| -10.0 * s,                          // h at −10
    |s| s * (SMALL_T - 10.0) - 0.5 * s * s, // t at |h| − 10 + 0.211..
    |s| -s * (CODY + 0.5 * s),              // q1 at 0.46875
    |s| s * (0.5 * s - CODY),               // q2
    |_| -0.109375,                          // the intrinsic value's x²
    |s| -s / SQRT_DBL_MIN,                  // the vega's end
];

/// The t at which a border lies, by h.
pub const EXPANSION: [Border; 4] = [
    |h| h.abs() - 10.0 + SMALL_T, // the asymptotic expansion's
    |_| SMALL_T,                  // the Taylor sum's
    |h| h.abs() - CODY,           // erfcx at 0.46875
    |h| h.abs() - 4.0 * SQRT_2,   // erfcx at 4
];

/// The s at which a border lies, by the size of x out of the money; the first two are the asymptotic expansion's.
pub const VOLATILITY: [Border; 5] = [
    |x| x / 10.0,
    |x| SMALL_T - 10.0 + ((10.0 - SMALL_T) * (10.0 - SMALL_T) + 2.0 * x).sqrt(),
    |_| 2.0 * SMALL_T,
    |x| (CODY * CODY + 2.0 * x).sqrt() - CODY,          // q1 at 0.46875
    |x| CODY - (CODY * CODY - 2.0 * x).max(0.0).sqrt(), // q2
];

/// The kinds' bytes, and one that is none.
pub const KINDS: [u64; 3] = [1, 2, 0];

/// Each argument's values, which are compared in all combinations; inputs on borders; and those that stand in the list of
/// samples, too.
pub struct Edges {
    pub values: Vec<Vec<u64>>,
    pub borders: Vec<Arguments>,
    pub samples: Vec<Arguments>,
}

impl Edges {
    pub fn of(values: Vec<Vec<u64>>) -> Edges {
        Edges { values, borders: Vec::new(), samples: Vec::new() }
    }
}

/// Some values of s or of h's distance from −10, of every size.
fn sizes() -> Vec<f64> {
    let usual = (-36..12_i64).map(|i| power(i.div_euclid(3)) * [1.0, 1.26, 1.59][i.rem_euclid(3) as usize]);
    usual
        .chain([f64::from_bits(3), f64::MIN_POSITIVE, 1e-300, 1e-154, 1e-16, 2.0 * SMALL_T, 1e3, 1e16, 1e150])
        .collect()
}

/// The two numbers and their neighbours by up to four units.
fn beside(a: f64, b: f64, all: &mut Vec<[u64; 2]>) {
    for i in -4..=4 {
        all.extend((-4..=4).map(|j| [neighbour(a.to_bits(), i), neighbour(b.to_bits(), j)]));
    }
}

fn on_borders_of_money() -> Vec<[u64; 2]> {
    let mut all = Vec::new();
    for s in sizes() {
        for border in MONEYNESS {
            beside(border(s), s, &mut all);
            beside(-border(s), s, &mut all);
        }
    }
    all
}

pub fn money() -> Edges {
    let borders = on_borders_of_money().into_iter().map(wide).collect();
    Edges { values: vec![edges(&PRICE_POINTS, 1); 2], borders, samples: sevens::MONEY.map(wide).to_vec() }
}

pub fn money_and_kind() -> Edges {
    let floats = edges(&PRICE_POINTS, 1);
    let with_kinds = |[x, s]: [u64; 2]| [wide([x, s, 1]), wide([x, s, 2])];
    Edges {
        values: vec![floats.clone(), floats, KINDS.to_vec()],
        borders: on_borders_of_money().into_iter().flat_map(with_kinds).collect(),
        samples: sevens::MONEY.into_iter().flat_map(with_kinds).collect(),
    }
}

pub fn expansion() -> Edges {
    let mut all = Vec::new();
    for size in sizes() {
        for border in EXPANSION {
            let h = -10.0 - size;
            beside(h, border(h), &mut all);
        }
        beside(-10.0, size, &mut all);
    }
    let borders = all.into_iter().map(wide).collect();
    Edges { values: vec![edges(&PRICE_POINTS, 1); 2], borders, samples: Vec::new() }
}

pub fn intrinsic() -> Edges {
    let mut values = edges(&PRICE_POINTS, 4);
    values.extend(edges(&POINTS, 2));
    Edges::of(vec![values, KINDS.to_vec()])
}

/// Prices that are refused or just not, and usual ones.
pub fn prices() -> Vec<u64> {
    let least = f64::MIN_POSITIVE.to_bits();
    let largest = f64::MAX.to_bits();
    let usual = [1e-300, 0.5, 1.0, 100.0, 101.0, 1e300].map(f64::to_bits);
    let refused =
        [0, 1, least - 1, largest + 1, 1 << 63, 0xBFF0 << 48, 0xFFF0 << 48, 0x7FF8 << 48, 0xFFF0_0000_0000_0001];
    usual.into_iter().chain([least, largest]).chain(refused).collect()
}

/// Refusals in their order: the first input has all four causes, each further one a cause less, the last none.
fn in_order() -> Vec<[u64; 5]> {
    let refused = [0, f64::INFINITY.to_bits(), 0x7FF8 << 48, 1];
    let usual = [100.0, 101.0, 0.25, 0.5].map(f64::to_bits);
    // Document 01's order is forward, strike, sigma, expiry.
    let market = |causes| {
        std::array::from_fn(|i| {
            if i == 4 {
                2
            } else if i < causes {
                usual[i]
            } else {
                refused[i]
            }
        })
    };
    (0..=4).map(market).collect()
}

pub fn market() -> Edges {
    let largest = f64::MAX.to_bits();
    let mut sigmas: Vec<u64> = [0.0, 1e-300, 0.01, 0.3, 5.0, f64::MAX].map(f64::to_bits).to_vec();
    sigmas.extend([1 << 63, 1, 0xBFE0 << 48, largest | 1 << 63, largest + 1, 0xFFF0 << 48, 0x7FF8 << 48]);
    let mut borders = Vec::new();
    for (forward, strike) in [(100.0, 100.5), (100.0, 80.0), (1.0, 4000.0), (7.0, 1e9), (3e-5, 2e-9), (1e300, 1e-3)] {
        for expiry in [1.0, 0.25, 0.1, 17.0] {
            for border in VOLATILITY {
                let sigma = border(ln(forward / strike).abs()) / f64::sqrt(expiry);
                let at = |steps, kind| {
                    let sigma = neighbour(sigma.to_bits(), steps);
                    wide([forward.to_bits(), strike.to_bits(), sigma, expiry.to_bits(), kind])
                };
                borders.extend((-20..=20).flat_map(|steps| [at(steps, 1), at(steps, 2)]));
            }
        }
    }
    Edges {
        values: vec![prices(), prices(), sigmas, prices(), KINDS.to_vec()],
        borders,
        samples: in_order().into_iter().chain(sevens::MARKETS).chain(sevens::PRICES).map(wide).collect(),
    }
}

pub const NAN: u64 = 0xFFF0_0000_0000_0001;

pub fn cubic() -> Edges {
    let epsilon = f64::EPSILON.to_bits();
    let largest = 4.056481920730334e31_f64.to_bits();
    let [half, one, two] = [0.5, 1.0, 2.0].map(f64::to_bits);
    let far = [0, half, one, INFINITY, INFINITY | SIGN, NAN, f64::MAX.to_bits()];
    let rs: Vec<u64> = (-2..=2).map(|k| neighbour(largest, k)).chain([0, one, INFINITY, NAN, two | SIGN]).collect();
    let widths = [0, one, INFINITY, NAN].into_iter().chain((-1..=1).map(|k| neighbour(epsilon, k)));
    let widths: Vec<u64> = widths.flat_map(|w| [w, w | SIGN]).collect();
    let few = vec![0, one, two | SIGN, NAN];
    Edges::of(vec![far.to_vec(), vec![0, one, INFINITY, NAN], widths, few.clone(), few.clone(), few.clone(), few, rs])
}

fn slopes() -> Vec<u64> {
    let [one, two, largest] = [1.0, 2.0, f64::MAX].map(f64::to_bits);
    let some = [0, 1, one, one + 1, two, largest, INFINITY];
    some.into_iter().flat_map(|x| [x, x | SIGN]).chain([NAN]).collect()
}

pub fn minimum() -> Edges {
    Edges::of(vec![slopes(), slopes(), slopes(), vec![0, 1, 2]])
}

fn control_floats() -> Vec<Vec<u64>> {
    let [one, two] = [1.0, 2.0].map(f64::to_bits);
    let few = vec![0, one, two | SIGN, INFINITY, NAN];
    let mut all = vec![few; 6];
    all[0] = vec![0, one, INFINITY];
    all.push(vec![0, SIGN, one, two | SIGN, INFINITY, NAN]);
    all
}

pub fn control() -> Edges {
    let mut all = control_floats();
    all.push(vec![0, 1, 2]);
    Edges::of(all)
}

pub fn convex() -> Edges {
    let mut all = control_floats();
    all.extend([vec![0, 1, 255], vec![0, 1, 2]]);
    Edges::of(all)
}
