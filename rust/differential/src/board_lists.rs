//! Lists of calls of the live board, each from an empty board on: fixed ones, every short one over a few quotes, and random
//! ones.

use crate::{
    board::{Call, Quote, MOST},
    edges::{INFINITY, NANS, SIGN},
};
use random_words::Words;

/// The series of a full board are these and those after it.
const FIRST: u32 = 1000;
/// Series that are not among them.
const OTHER: u32 = 7;
const ANOTHER: u32 = u32::MAX;

pub fn arrive(series: u32, volatility: f64) -> Call {
    arrive_with(series, volatility.to_bits())
}

fn arrive_with(series: u32, volatility: u64) -> Call {
    Call::Arrive(Quote { series, volatility })
}

/// So many arrivals, of repeating volatilities.
fn arrivals(count: usize) -> Vec<Call> {
    (0..count as u32).map(|i| arrive(FIRST + i, f64::from(i % 16) / 16.0)).collect()
}

fn leaves(series: impl IntoIterator<Item = u32>) -> Vec<Call> {
    series.into_iter().map(Call::Leave).collect()
}

/// The calls, with highest after each.
fn shown_after_each(calls: Vec<Call>) -> Vec<Call> {
    calls.into_iter().flat_map(|call| [call, Call::Highest]).collect()
}

// ---- fixed lists

pub fn fixed() -> Vec<Vec<Call>> {
    [
        refused(),
        vec![beyond_the_last_place(), series_of_zeros()],
        left_and_filled(),
        equal_ones(),
        in_order(),
        emptied(),
    ]
    .concat()
}

/// Each refusal with those after it and without, on an empty board, one with room, and a full one: NaN of a live series and
/// of another, and a number of either.
fn refused() -> Vec<Vec<Call>> {
    let on = |live: usize| {
        let mut calls = arrivals(live);
        for nan in NANS {
            for series in [FIRST, FIRST + live as u32 - 1, OTHER] {
                calls.extend([arrive_with(series, nan), Call::Highest]);
            }
            calls.extend([arrive(FIRST, 0.5), arrive(FIRST + live as u32 - 1, 2.0), Call::Highest]);
        }
        calls.extend([arrive(OTHER, 0.5), arrive(ANOTHER, 2.0), Call::Highest]);
        calls
    };
    let on_an_empty_board = NANS.map(|nan| arrive_with(0, nan)).to_vec();
    vec![shown_after_each(on_an_empty_board), on(1), on(2), on(MOST - 1), on(MOST)]
}

fn beyond_the_last_place() -> Vec<Call> {
    shown_after_each(arrivals(MOST + 8))
}

/// Places that are free look like quotes of series 0 and a volatility of 0.
fn series_of_zeros() -> Vec<Call> {
    let zero = [Call::Leave(0), arrive(0, 0.0), arrive(0, -0.0), Call::Leave(0)];
    let others = [arrive(1, -1.0), Call::Leave(0), arrive(0, -0.0), Call::Leave(1), Call::Leave(0)];
    let mut calls = shown_after_each([&zero[..], &zero, &others].concat());
    // The last place of a full board is freed, and only looks like series 0.
    calls.extend(arrivals(MOST));
    calls.extend([
        Call::Leave(FIRST + 255),
        Call::Leave(0),
        arrive(0, 3.0),
        Call::Highest,
        Call::Leave(0),
        arrive(0, 0.0),
    ]);
    calls
}

/// From each place of a full board one leaves, and another fills the board again.
fn left_and_filled() -> Vec<Vec<Call>> {
    let from = |place: u32| {
        let series = FIRST + place;
        let mut calls = arrivals(MOST);
        calls.extend([Call::Leave(OTHER), Call::Highest, Call::Leave(series), Call::Highest, Call::Leave(series)]);
        calls.extend([arrive(series, f64::NAN), arrive(FIRST + (place + 1) % 256, 1.0), arrive(OTHER, 0.9375)]);
        calls.extend([Call::Highest, arrive(series, 1.0), Call::Leave(OTHER), arrive(series, 1.0), Call::Highest]);
        calls
    };
    (0..MOST as u32).map(from).collect()
}

/// Three equal quotes, zeros of both signs among them, of which each leaves and arrives again; by themselves and between
/// lower ones and one that is higher for a time.
fn equal_ones() -> Vec<Vec<Call>> {
    let list = |values: [f64; 3], orders: [u32; 3]| {
        let [a, b, c] = values;
        let mut calls = vec![arrive(1, a), arrive(2, b), arrive(3, c)];
        for series in orders {
            calls.extend([Call::Leave(series), arrive(series, values[series as usize - 1])]);
        }
        calls.extend(leaves(orders));
        calls
    };
    let values = [
        [0.2; 3],
        [0.0, -0.0, 0.0],
        [-0.0, 0.0, -0.0],
        [-0.0, -0.0, 0.0],
        [0.0, 0.0, -0.0],
        [f64::INFINITY; 3],
        [f64::NEG_INFINITY; 3],
        [f64::from_bits(1); 3],
        [-0.0, f64::from_bits(1 | SIGN), 0.0],
    ];
    let orders = [[1, 2, 3], [1, 3, 2], [2, 1, 3], [2, 3, 1], [3, 1, 2], [3, 2, 1]];
    let mut all = Vec::new();
    for values in values {
        for order in orders {
            let list = list(values, order);
            let low = [arrive(10, f64::NEG_INFINITY), arrive(11, -5e-324)];
            let high = [arrive(12, f64::INFINITY), Call::Highest, Call::Leave(12)];
            all.push(shown_after_each([&low[..], &list, &high].concat()));
            all.push(shown_after_each([&high[..], &low, &list].concat()));
            all.push(shown_after_each(list));
        }
    }
    all
}

/// 256 quotes of rising, falling and equal volatilities, of which the one that is shown leaves, again and again.
fn in_order() -> Vec<Vec<Call>> {
    let count = MOST as u32;
    let of = |volatility: fn(u32) -> f64, leaving: fn(u32) -> u32| {
        let arriving = (0..count).map(|i| arrive(FIRST + i, volatility(i))).collect();
        [shown_after_each(arriving), shown_after_each(leaves((0..count).map(|i| FIRST + leaving(i))))].concat()
    };
    vec![
        of(f64::from, |i| 255 - i),
        of(|i| -f64::from(i), |i| i),
        of(|_| 0.2, |i| i),
        of(|i| f64::from_bits(u64::from(i)), |i| 255 - i),
        // Quotes of both zeros by turns.
        of(|i| if i % 2 == 0 { 0.0 } else { -0.0 }, |i| i),
        of(|i| if i % 2 == 0 { -0.0 } else { 0.0 }, |i| i),
    ]
}

/// Full boards that are emptied from the front, from the back and from the middle, and are filled again.
fn emptied() -> Vec<Vec<Call>> {
    let count = MOST as u32;
    let orders: [fn(u32) -> u32; 3] = [|i| i, |i| 255 - i, |i| (i + 128) % 256];
    let list = |order: fn(u32) -> u32| {
        let leaving = shown_after_each(leaves((0..count).map(|i| FIRST + order(i))));
        let filled = [arrivals(MOST), leaving].concat();
        [filled.clone(), vec![Call::Leave(FIRST)], filled, arrivals(MOST), vec![arrive(OTHER, 0.2)]].concat()
    };
    orders.map(list).to_vec()
}

// ---- every short list

/// Three series, each with three volatilities, and each that leaves.
fn few_calls() -> [Call; 12] {
    std::array::from_fn(|i| {
        let series = i as u32 / 4;
        match i % 4 {
            0 => Call::Leave(series),
            1 => arrive(series, 0.0),
            2 => arrive(series, -0.0),
            _ => arrive(series, 0.2),
        }
    })
}

/// Every list of five such calls that begins with one of them, highest after each.
pub fn short_lists(first: usize, mut each: impl FnMut(&[Call])) {
    let few = few_calls();
    for turn in 0..12_usize.pow(4) {
        let rest = (0..4).map(|place| few[turn / 12_usize.pow(place) % 12]);
        each(&shown_after_each([few[first]].into_iter().chain(rest).collect()));
    }
}

// ---- random lists

/// How the volatilities of a list are drawn.
#[derive(Clone, Copy)]
enum Volatilities {
    Zeros,
    /// Four that differ little.
    Few,
    Usual,
    Special,
    AnyBits,
}

const SPECIAL: [u64; 9] =
    [0, SIGN, 1, 1 | SIGN, INFINITY, INFINITY | SIGN, 0x7FEF_FFFF_FFFF_FFFF, 0x000F_FFFF_FFFF_FFFF, 0xBFF0 << 48];

fn volatility(words: &mut Words, of: Volatilities) -> u64 {
    if words.below(24) == 0 {
        return words.choice(&NANS);
    }
    match of {
        Volatilities::Zeros => words.any() & SIGN,
        Volatilities::Few => 0.2_f64.to_bits() + words.below(4),
        Volatilities::Usual => words.uniform(0.05, 0.9).to_bits(),
        Volatilities::Special => words.choice(&SPECIAL),
        Volatilities::AnyBits => words.any(),
    }
}

/// A list that is being made.
struct List<'a> {
    words: &'a mut Words,
    calls: Vec<Call>,
    of: Volatilities,
    /// Series are drawn from so many; from all where there are none.
    series: u64,
    /// Each further one arrives where a phase fills the board.
    next: u32,
}

impl List<'_> {
    fn any_series(&mut self) -> u32 {
        if self.series == 0 {
            self.words.any() as u32
        } else {
            // By twos they differ in their first byte alone, and from the others in their last ones.
            let number = self.words.below(self.series) as u32;
            number / 2 + (number % 2) * 0xFF00_0000
        }
    }

    /// Mostly one that has arrived before in the list.
    fn known_series(&mut self) -> u32 {
        let place = self.words.below(self.calls.len() as u64 + 1) as usize;
        match self.calls.get(place) {
            Some(Call::Arrive(quote)) => quote.series,
            _ => self.any_series(),
        }
    }

    fn arrive(&mut self, series: u32) {
        let volatility = volatility(self.words, self.of);
        self.calls.push(arrive_with(series, volatility));
    }

    fn leave(&mut self) {
        let series = self.known_series();
        self.calls.push(Call::Leave(series));
    }

    /// Arrivals, leaves and highest in these parts of eight.
    fn mix(&mut self, count: u64, arriving: u64, leaving: u64) {
        for _ in 0..count {
            match self.words.below(8) {
                turn if turn < arriving => {
                    let series = self.any_series();
                    self.arrive(series);
                }
                turn if turn < arriving + leaving => self.leave(),
                _ => self.calls.push(Call::Highest),
            }
        }
    }

    /// Arrivals of series that were not there before, and some other calls.
    fn fill(&mut self, count: u64) {
        for _ in 0..count {
            let series = self.next;
            self.next = self.next.wrapping_add(1);
            self.arrive(series);
            if self.words.below(8) == 0 {
                self.mix(1, 2, 1);
            }
        }
    }

    /// Nearly all that arrived leave, in the order of arrival or against it.
    fn empty(&mut self) {
        let mut series: Vec<u32> = self
            .calls
            .iter()
            .filter_map(|call| if let Call::Arrive(quote) = call { Some(quote.series) } else { None })
            .collect();
        if self.words.below(2) == 0 {
            series.reverse();
        }
        for series in series {
            if self.words.below(32) != 0 {
                self.calls.push(Call::Leave(series));
            }
            if self.words.below(4) == 0 {
                self.calls.push(Call::Highest);
            }
        }
    }
}

/// Mostly a short list over few series; one in 256 is long, and mostly fills the board and more.
pub fn random_list(words: &mut Words) -> Vec<Call> {
    let of = words.choice(&[
        Volatilities::Zeros,
        Volatilities::Few,
        Volatilities::Usual,
        Volatilities::Special,
        Volatilities::AnyBits,
    ]);
    let is_long = words.below(256) == 0;
    let series = words.choice(if is_long { &[0, 3, 250, 256, 260, 300, 1000] } else { &[0, 1, 2, 3, 4, 6, 8, 20] });
    let next = words.any() as u32;
    let count = 1 + words.below(24);
    let mut list = List { words, calls: Vec::new(), of, series, next };
    if is_long {
        long_list(&mut list);
    } else {
        list.mix(count, 3, 2);
    }
    list.calls
}

fn long_list(list: &mut List) {
    for _ in 0..1 + list.words.below(4) {
        let count = list.words.below(300);
        match list.words.below(6) {
            0 => list.fill(count),
            1 | 2 => list.fill(250 + count / 10),
            3 => list.mix(count, 6, 1),
            4 => list.mix(2 * count, 3, 3),
            _ => list.empty(),
        }
    }
}
