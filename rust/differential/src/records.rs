//! The samples of layer 3, numbers 37 to 41 of the list: solve, file, recheck, read, and bid and ask. A line asks for one
//! word of what the call leaves, so that a call has as many lines as it has words to look at. Each function's calls under rule
//! set 0 come first, then those under rule set 1 and under unknown ones.

use crate::{
    markets::{random_question, Question},
    pairs::{Call, Pair},
    samples::line,
    sevens,
    solves::fixed_questions,
};
use random_words::Words;
use rust_over_rules::{
    bid_ask,
    book::{self, write_trail, Refusal, RECORD},
    elementary::bits_of,
    solver::{self, Market, Run},
};
use std::collections::BTreeSet;

const SOLVE: usize = 37;
const FILE: usize = 38;
const RECHECK: usize = 39;
const READ: usize = 40;
const BID_ASK: usize = 41;

/// The trail's bytes and the book's, before, as the program has them.
const TRAIL: [u8; 960] = [165; 960];
const HIGH_TRAIL: [u8; 960] = [90; 960];
const BOOK: [u8; 200] = [90; 200];

const RANDOM: usize = 40;
const LIMITS: [i32; 8] = [2, 2, 5, 3, 1, 20, 0, -1];

fn word(bytes: &[u8], i: usize) -> u64 {
    u64::from_le_bytes(std::array::from_fn(|j| bytes[8 * i + j]))
}

/// A rule set's number in a word that has another in its lower half.
fn above(rule_set: u32) -> u64 {
    u64::from(rule_set) << 32
}

/// A limit as the list has it: a count, or all ones for -1.
fn limit_word(limit: i32) -> u64 {
    i64::from(limit) as u64
}

/// The table's rows, solves that meet 7, and random markets; only the two kinds, since the program has no byte for one.
fn markets(words: &mut Words) -> Vec<(Question, Market)> {
    let sevens = sevens::SOLVES.map(|[a, b, c, d, kind]| Question::of([a, b, c, d], kind as u8));
    let mut all: Vec<Question> = fixed_questions();
    all.truncate(16);
    all.extend(sevens);
    all.extend(
        std::iter::repeat_with(|| random_question(words)).filter(|question| question.market().is_ok()).take(RANDOM),
    );
    all.into_iter().filter_map(|question| Some((question, question.market().ok()?))).collect()
}

/// The volatility's bits, the outcome's word, and the number.
fn answer(run: &Run) -> (u64, u64, u8) {
    let steps = 65536 * u64::from(run.count());
    match run.answer {
        Ok(solution) => {
            (bits_of(solution.volatility), u64::from(solution.branch) + 256 * u64::from(solution.ending) + steps, 0)
        }
        Err(number) => (0, steps, number),
    }
}

/// What a solve leaves: the run, and the trail.
fn solved(question: Question, market: Market, limit: i32, bytes: usize) -> (Run, [u8; 960]) {
    let run = solver::solve(question.rule_set, market, limit, Some(bytes));
    let mut trail = TRAIL;
    write_trail(&run.steps, &mut trail);
    (run, trail)
}

/// The lines of a solve for these words of its trail.
fn solve_lines(question: Question, limit: i32, bytes: usize, run: &Run, words: impl IntoIterator<Item = (usize, u64)>) {
    let (volatility, outcome, number) = answer(run);
    let [a, b, c, d] = question.floats;
    let rule_set = question.rule_set.into();
    let write = |which: usize, bits: u64| {
        let arguments = [a, b, c, d, question.kind.into(), limit_word(limit), bytes as u64, which as u64, rule_set];
        line(SOLVE, arguments, (bits, number));
    };
    write(0, volatility);
    write(1, outcome);
    words.into_iter().for_each(|(i, word)| write(2 + i, word));
}

/// Every word of the records, and the one after them.
fn solve(question: Question, market: Market, limit: i32, bytes: usize) {
    let (run, trail) = solved(question, market, limit, bytes);
    let places = (0..=6 * run.steps.len()).filter(|i| 8 * i + 8 <= TRAIL.len());
    solve_lines(question, limit, bytes, &run, places.map(|i| (i, word(&trail, i))));
}

/// The trail's first word alone, where there is a step or a refusal.
fn short_solve(question: Question, limit: i32, bytes: usize) {
    // A market with a kind: what is asked of an unknown rule set is the same market.
    let market = question.under(0).market().expect("a kind");
    let (run, trail) = solved(question, market, limit, bytes);
    let is_looked_at = run.answer.is_err() || !run.steps.is_empty();
    solve_lines(question, limit, bytes, &run, is_looked_at.then(|| (0, word(&trail, 0))));
}

/// What filing leaves: the used count, the refusal's number, and the book.
fn filed(question: Question, market: Market, limit: i32, used: u64) -> (u64, u8, [u8; 200]) {
    let mut after = BOOK;
    match book::file(question.rule_set, market, limit, &mut after, used) {
        Ok(count) => (count, 0, after),
        Err(Refusal { number, .. }) => (0, number, after),
    }
}

/// The lines of a filing for these words of the book.
fn file_lines(question: Question, market: Market, limit: i32, used: u64, words: impl IntoIterator<Item = usize>) {
    let (count, number, after) = filed(question, market, limit, used);
    let [a, b, c, d] = question.floats;
    let write = |which: usize, bits: u64| {
        let rule_set = question.rule_set.into();
        let arguments = [a, b, c, d, question.kind.into(), limit_word(limit), used, which as u64, rule_set];
        line(FILE, arguments, (bits, number));
    };
    write(0, count);
    words.into_iter().for_each(|i| write(1 + i, word(&after, i)));
}

/// The slot's words, one before and one after them.
fn file(question: Question, market: Market, limit: i32, used: u64) {
    let slot = 8 * used.min(2) as usize;
    file_lines(question, market, limit, used, slot.saturating_sub(1)..slot + 9);
}

/// With the rule set's number above the record's number.
fn recheck(record: [u8; RECORD], k: u64, rule_set: u32) {
    let (bits, number) = match book::recheck(&record, 1, k, rule_set) {
        Ok(agrees) => (agrees.into(), 0),
        Err(Refusal { number, .. }) => (0, number),
    };
    let mut arguments = [0; 9];
    (0..8).for_each(|i| arguments[i] = word(&record, i));
    arguments[8] = k + above(rule_set);
    line(RECHECK, arguments, (bits, number));
}

/// A true record, records with one byte changed, and another record's number.
fn rechecks(market: Market, limit: i32, byte: usize) {
    let Ok(record) = book::record(market, limit, &solver::solve(0, market, limit, None)) else { return };
    recheck(record, 0, 0);
    for at in [byte % RECORD, 32 + byte % 8, 44 + byte % 4, 48, 49, 50, 51 + byte % 13] {
        let mut changed = record;
        changed[at] ^= 1 << (byte % 3);
        recheck(changed, 0, 0);
    }
    if byte == 0 {
        recheck(record, 1, 0);
    }
}

fn read(used: u64, k: u64, which: u64) {
    let mut bytes = [0; 200];
    [(0, 1), (64, 2), (128, 3), (192, 4)].into_iter().for_each(|(at, value)| bytes[at] = value);
    let (bits, number) = match book::read(&bytes, used, k) {
        Ok(part) => (word(part, which as usize), 0),
        Err(number) => (0, number),
    };
    line(READ, [used, k, which, 0, 0, 0, 0, 0, 0], (bits, number));
}

/// An end's lines have its own number; a number that refuses the call stands in both ends'.
fn bid_ask(Call { pair, limit, trails }: Call) {
    let [low_bytes, high_bytes] = trails.expect("two trails");
    let range = pair.under(0).range().expect("a kind");
    let refused = |number| [(); 2].map(|()| Run { answer: Err(number), steps: Vec::new() });
    let runs = bid_ask::bid_ask(pair.rule_set, range, limit, trails).unwrap_or_else(refused);
    let [a, b, c, d, e] = pair.floats;
    for (end, (run, mut trail)) in runs.iter().zip([TRAIL, HIGH_TRAIL]).enumerate() {
        write_trail(&run.steps, &mut trail);
        let (volatility, outcome, number) = answer(run);
        let write = |which: usize, bits: u64| {
            let bytes = (low_bytes + 65536 * high_bytes) as u64 + above(pair.rule_set);
            let arguments = [a, b, c, d, e, pair.kind.into(), limit_word(limit), bytes, which as u64];
            line(BID_ASK, arguments, (bits, number));
        };
        write(2 * end, volatility);
        write(2 * end + 1, outcome);
        // the trail's first word, the last one of the records, and the one after them
        let after = 6 * run.steps.len();
        let words = BTreeSet::from([0, after.saturating_sub(1), after]);
        words.into_iter().for_each(|i| write(4 + 2 * i + end, word(&trail, i)));
    }
}

/// With trails that are exactly long enough.
fn call(option: [f64; 3], kind: u8, prices: [f64; 2], limit: i32) -> Call {
    let [forward, strike, expiry] = option;
    let question = Question::new([0.0, forward, strike, expiry], kind);
    let trails = Some([48 * limit.max(0) as usize; 2]);
    Call { pair: Pair::new(question, prices.map(f64::to_bits)), limit, trails }
}

/// Prices in each branch, at the sentinels, equal ones and neighbours; limits that allow no step; and longer trails.
fn usual_calls() -> Vec<Call> {
    let (near, far) = ([100.0, 103.0, 0.5], [100.0, 150.0, 0.5]);
    let mut all = vec![
        call(far, 1, [0.01, 0.02], 2),
        call(near, 1, [2.5, 2.75], 5),
        call(near, 2, [24.0, 25.5], 1),
        call(far, 2, [53.0, 75.0], 3),
        call(near, 1, [98.0, 99.0], 5),
        call([7.0, 2.0, 4.0], 2, [1e-30, 1.9], 2),
        call(far, 2, [49.0, 53.0], 2),
        call(near, 1, [25.0, 101.0], 2),
        call(near, 1, [-1.0, 103.0], 2),
        call(near, 1, [25.0, 25.0], 2),
        call(near, 1, [25.0, 25.0_f64.next_up()], 2),
        call(near, 1, [25.0_f64.next_up(), 25.0], 2),
        call(near, 1, [-0.0, 0.0], 1),
        call(near, 1, [0.0, -0.0], 1),
        call(near, 1, [2.5, 25.0], 0),
        call(near, 1, [2.5, 25.0], -1),
    ];
    all.push(Call { trails: Some([96 + 9, 96 + 50]), ..call(near, 1, [2.5, 25.0], 2) });
    all
}

/// Refusals in their order: the first call has every cause, each further one a cause less, the ninth none. The last two have
/// 1 for low without 1 for high, and 21 for the low trail without the high one's.
fn refused_calls() -> Vec<Call> {
    let of = |passed: usize| {
        let good = |place: usize, value: f64| if passed > place { value } else { 0.0 };
        let low = if passed > 0 { 2.5 } else { f64::INFINITY };
        let high = [f64::NEG_INFINITY, f64::NEG_INFINITY, 2.0].get(passed).copied().unwrap_or(2.75);
        let trails = Some([6, 7].map(|place| if passed > place { 48 } else { 47 }));
        Call { trails, ..call([good(3, 100.0), good(4, 103.0), good(5, 0.5)], 1, [low, high], 1) }
    };
    let option = [100.0, 103.0, 0.5];
    let short = Call { trails: Some([47, 48]), ..call(option, 1, [2.5, 2.75], 1) };
    (0..9).map(of).chain([call(option, 1, [f64::INFINITY, 2.75], 1), short]).collect()
}

/// 7 without a step, after one and after two: at the low price, at the high one, and at both.
fn seven_calls() -> Vec<Call> {
    let of = |[price, forward, strike, expiry, kind]: [u64; 5]| {
        let [price, forward, strike, expiry] = [price, forward, strike, expiry].map(f64::from_bits);
        let prices = [[price, 1.01 * price], [0.99 * price, price], [price, price]];
        prices.map(|prices| call([forward, strike, expiry], kind as u8, prices, 6))
    };
    [0, 4, 5].into_iter().flat_map(|i| of(sevens::SOLVES[i])).collect()
}

// ---- rule set 1, and unknown ones

/// Numbers that are no rule set's.
const UNKNOWN: [u32; 3] = [2, 256, u32::MAX];

/// "A student's Call at 120, forward 200, strike 100, is reported above maximum."
fn students_call() -> Question {
    Question::new([120.0, 200.0, 100.0, 1.0], 1)
}

/// At a cap and beside it by one float.
fn beside(cap: f64) -> [f64; 3] {
    [cap.next_down(), cap, cap.next_up()]
}

/// Prices by the caps, in the money and out of it, between them and below both; and the student's Call with all its steps.
fn solves_under_1() {
    let question = students_call().under(1);
    solve(question, question.market().expect("a kind"), 2, 96);
    let of = |price, [forward, strike, expiry]: [f64; 3], kind| {
        short_solve(Question::new([price, forward, strike, expiry], kind).under(1), 2, 96);
    };
    for (option, kind) in [([200.0, 120.0, 1.0], 1), ([120.0, 200.0, 1.0], 2)] {
        [beside(120.0), beside(200.0)].concat().into_iter().for_each(|price| of(price, option, kind));
    }
    // Out of the money the textbook's cap is the lesser one: no root of the expiry divides what it gives.
    beside(120.0).into_iter().chain([150.0]).for_each(|price| of(price, [120.0, 200.0, 4.0], 1));
    of(150.0, [200.0, 120.0, 4.0], 2);
    of(2.5, [100.0, 103.0, 0.5], 1);
}

/// With another cause each: a price, a forward, an expiry, a trail that is too short.
fn solves_of_unknown_rule_sets() {
    for rule_set in UNKNOWN {
        short_solve(students_call().under(rule_set), 2, 96);
    }
    for (floats, bytes) in
        [([f64::INFINITY, 0.0, 0.0, 0.0], 0), ([1.0, 0.0, 1.0, 1.0], 96), ([1.0, 1.0, 1.0, -1.0], 96), ([1.0; 4], 95)]
    {
        short_solve(Question::new(floats, 1).under(2), 2, bytes);
    }
}

fn filings_of_rule_sets() {
    let question = students_call();
    let market = question.market().expect("a kind");
    file(question.under(1), market, 2, 0);
    // A free slot, a full book, and a used count that is too large.
    for (rule_set, used) in [(2, 1), (256, 3), (u32::MAX, 4)] {
        file_lines(question.under(rule_set), market, 2, used, [8]);
    }
    let refused = Question::new([f64::NAN, 0.0, 0.0, 0.0], 1);
    file_lines(refused.under(2), refused.market().expect("a kind"), 2, 0, [0]);
}

/// Records of both rule sets under both, one between the caps and one below them; and unknown rule sets with 23, with 24, and
/// with a price that is refused.
fn rechecks_of_rule_sets() {
    let record = |question: Question, rule_set| {
        let market = question.market().expect("a kind");
        book::record(market, 2, &solver::solve(rule_set, market, 2, None)).expect("it isn't refused")
    };
    let below = Question::new([2.5, 100.0, 103.0, 0.5], 1);
    for question in [students_call(), below] {
        for (filed, asked) in [(0, 1), (1, 0), (1, 1)] {
            recheck(record(question, filed), 0, asked);
        }
    }
    let old = record(below, 0);
    let [mut outside, mut refused] = [old; 2];
    outside[63] = 1;
    refused[..8].copy_from_slice(&f64::NAN.to_le_bytes());
    UNKNOWN.into_iter().for_each(|rule_set| recheck(old, 0, rule_set));
    for (record, k) in [(old, 1), (outside, 0), (refused, 0)] {
        recheck(record, k, 2);
    }
}

fn calls_of_rule_sets() -> Vec<Call> {
    let student = [200.0, 100.0, 1.0];
    let of = |rule_set, call: Call| Call { pair: call.pair.under(rule_set), ..call };
    vec![
        of(1, call(student, 1, [120.0, 150.0], 2)),
        of(1, call([100.0, 103.0, 0.5], 1, [2.5, 101.0], 1)),
        of(2, call(student, 1, [120.0, 150.0], 1)),
        of(256, call(student, 1, [f64::INFINITY, 150.0], 1)),
        of(u32::MAX, Call { trails: Some([47, 47]), ..call(student, 1, [150.0, 120.0], 1) }),
    ]
}

pub fn write(seed: u64) {
    let mut words = Words::new(seed, "records", 0);
    let all = markets(&mut words);
    for (i, &(question, market)) in all.iter().enumerate() {
        let limit = LIMITS[i % LIMITS.len()];
        let enough = 48 * limit.max(0) as usize;
        solve(question, market, limit, enough);
        if i % 8 == 2 {
            solve(question, market, limit, enough - 1);
            solve(question, market, limit, enough + 9);
        }
    }
    solves_under_1();
    solves_of_unknown_rule_sets();
    for (i, &(question, market)) in all.iter().enumerate().step_by(6) {
        file(question, market, LIMITS[i % LIMITS.len()], [0, 1, 2, 1, 3, 4, 2, u64::MAX][i / 6 % 8]);
    }
    filings_of_rule_sets();
    for (i, &(_, market)) in all.iter().enumerate().step_by(4) {
        rechecks(market, LIMITS[i % LIMITS.len()], i);
    }
    rechecks_of_rule_sets();
    for (used, k) in [(0, 0), (1, 0), (3, 0), (3, 1), (3, 2), (3, 3), (2, 2), (4, 0), (u64::MAX, 0), (3, u64::MAX)] {
        (0..2).for_each(|which| read(used, k, which));
    }
    [usual_calls(), refused_calls(), seven_calls(), calls_of_rule_sets()].concat().into_iter().for_each(bid_ask);
}
