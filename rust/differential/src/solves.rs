//! solve and its wrapper beside the Rust: volatility, number, branch, ending, steps, and every byte of the trail.

use crate::{
    bid_ask, boards, books,
    borders::{prices, KINDS},
    caps,
    causes::{every_set, of_question, OF_FILE, OF_QUESTIONS, OF_RECHECK, WITH_A_TRAIL},
    compare::{combine, Run},
    damaged_boards,
    inputs::wide,
    markets::{any_question, limit, Question},
    packed_prices, pairs, roots,
    rule_sets::UNKNOWN,
    sevens,
    tally::Tally,
};
use gintubalos::bits as ours;
use random_words::Words;
use rust_over_rules::{
    book::{write_trail, STEP},
    elementary::{bits_of, NAN_BITS},
    solver::{self, is_long_enough},
};

/// A function of layer 3, the live board, or a function of the square root or of packed prices: its name, its random inputs
/// in a whole and in a quick run, what compares it (the edges in lists, each for a thread), and what a run says of the calls
/// that it met, with those that it was to meet and did not.
pub struct Part {
    pub name: &'static str,
    pub inputs: u64,
    pub quick: u64,
    pub edges: &'static [fn(&mut Tally)],
    pub random: fn(&mut Words, &mut Tally),
    pub report: fn(&Tally) -> Vec<String>,
}

pub const SOLVE: &str = "solve_with_trail";
pub const WITHOUT_TRAIL: &str = "solve_without_trail";
pub const WRAPPER: &str = "implied_volatility_from_a_transformed_rational_guess";

pub const BID_ASK: &str = "bid_ask";
pub const BID_ASK_WITHOUT_TRAILS: &str = "bid_ask_without_trails";

pub const PARTS: [Part; 17] = [
    Part {
        name: SOLVE,
        inputs: 2_000_000,
        quick: 100_000,
        edges: &[|tally| solve_edges(tally, 0), |tally| solve_edges(tally, 1), refused_solves],
        random: solve_random,
        report: |tally| {
            tally.print_solves();
            tally.caps.print();
            let checks = tally.report_checks(&WITH_A_TRAIL, |_, _| true);
            [tally.missing(), tally.caps.missing(), checks].concat()
        },
    },
    Part {
        name: WRAPPER,
        inputs: 1_000_000,
        quick: 20_000,
        edges: &[
            |tally| questions(0, |question| wrapper(tally, question)),
            |tally| {
                questions(1, |question| wrapper(tally, question));
                refused_questions(|question| wrapper(tally, question));
            },
        ],
        random: |words, tally| wrapper(tally, any_question(words)),
        report: |tally| tally.report_checks(&OF_QUESTIONS, |_, _| true),
    },
    Part {
        name: WITHOUT_TRAIL,
        inputs: 1_000_000,
        quick: 20_000,
        edges: &[
            |tally| without_trail_edges(tally, 0),
            |tally| {
                without_trail_edges(tally, 1);
                refused_questions(|question| without_trail(tally, question, 2));
            },
        ],
        random: |words, tally| without_trail(tally, any_question(words), limit(words).min(200)),
        report: |tally| tally.report_checks(&OF_QUESTIONS, |_, _| true),
    },
    Part {
        name: "target",
        inputs: 1_000_000,
        quick: 100_000,
        edges: &[
            |tally| questions(0, |question| target(tally, question)),
            |tally| {
                questions(1, |question| target(tally, question));
                refused_questions(|question| target(tally, question));
            },
        ],
        random: |words, tally| target(tally, any_question(words)),
        report: |tally| tally.report_checks(&OF_QUESTIONS, |_, _| true),
    },
    Part {
        name: BID_ASK,
        inputs: 1_000_000,
        quick: 100_000,
        edges: &[|tally| bid_ask::edges(tally, 0), |tally| bid_ask::edges(tally, 1), bid_ask::refused_calls],
        random: |words, tally| bid_ask::compare(tally, pairs::random_call(words)),
        report: |tally| bid_ask::report(tally, true),
    },
    Part {
        name: BID_ASK_WITHOUT_TRAILS,
        inputs: 1_000_000,
        quick: 20_000,
        edges: &[
            |tally| bid_ask::edges_without_trails(tally, 0),
            |tally| {
                bid_ask::edges_without_trails(tally, 1);
                bid_ask::refused_calls_without_trails(tally);
            },
        ],
        random: |words, tally| bid_ask::compare(tally, pairs::random_call_without_trails(words)),
        report: |tally| bid_ask::report(tally, false),
    },
    Part {
        name: "file",
        inputs: 1_000_000,
        quick: 20_000,
        edges: &[|tally| books::file_edges(tally, 0), |tally| books::file_edges(tally, 1), books::refused_filings],
        random: books::file_random,
        // A used count is above the slots or equal to them, not both.
        report: |tally| tally.report_checks(&OF_FILE, |first, _| first != "23"),
    },
    Part {
        name: "recheck",
        inputs: 1_000_000,
        quick: 20_000,
        edges: &[|tally| books::recheck_edges(tally, 0), |tally| books::recheck_edges(tally, 1), books::other_rechecks],
        random: books::recheck_random,
        report: |tally| {
            // Where there is no record, its bytes have nothing to say.
            let checks = tally.report_checks(&OF_RECHECK, |first, later| first != "23" || later == "32");
            [checks, books::report_rechecks(tally)].concat()
        },
    },
    Part {
        name: "read",
        inputs: 1_000_000,
        quick: 100_000,
        edges: &[books::read_edges],
        random: books::read_random,
        report: |_| Vec::new(),
    },
    Part {
        name: "line",
        inputs: 200_000,
        quick: 20_000,
        edges: &[books::line_edges],
        random: books::line_random,
        report: |_| Vec::new(),
    },
    // A random input is a list of calls.
    Part {
        name: "board",
        inputs: 1_000_000,
        quick: 50_000,
        edges: &[
            boards::fixed_lists,
            boards::every_short_list::<0>,
            boards::every_short_list::<1>,
            boards::every_short_list::<2>,
        ],
        random: boards::random,
        report: boards::report,
    },
    Part {
        name: "damaged_board",
        inputs: 1_000_000,
        quick: 50_000,
        edges: &[damaged_boards::edges],
        random: damaged_boards::random,
        report: damaged_boards::report,
    },
    // After the table's line of the same name, which has inputs as the other functions there.
    Part {
        name: "sqrt",
        inputs: 100_000_000,
        quick: 5_000_000,
        edges: &[roots::fixed_roots::<0>, roots::fixed_roots::<1>, roots::fixed_roots::<2>, roots::fixed_roots::<3>],
        random: roots::random_root,
        report: roots::report_roots,
    },
    // A random input is asked after each turn.
    Part {
        name: "sqrt_digits",
        inputs: 1_000_000,
        quick: 50_000,
        edges: &[
            roots::fixed_digits::<0>,
            roots::fixed_digits::<1>,
            roots::fixed_digits::<2>,
            roots::fixed_digits::<3>,
        ],
        random: roots::random_digits,
        report: roots::report_digits,
    },
    Part {
        name: "sqrt_aligned",
        inputs: 10_000_000,
        quick: 1_000_000,
        edges: &[
            roots::fixed_alignments::<0>,
            roots::fixed_alignments::<1>,
            roots::fixed_alignments::<2>,
            roots::fixed_alignments::<3>,
        ],
        random: roots::random_alignment,
        report: roots::report_alignments,
    },
    // What is accepted is written again, too.
    Part {
        name: "packed_read",
        inputs: 10_000_000,
        quick: 1_000_000,
        edges: &[
            packed_prices::fixed_readings::<0>,
            packed_prices::fixed_readings::<1>,
            packed_prices::fixed_readings::<2>,
            packed_prices::fixed_readings::<3>,
        ],
        random: packed_prices::random_reading,
        report: packed_prices::report_readings,
    },
    Part {
        name: "packed_write",
        inputs: 10_000_000,
        quick: 1_000_000,
        edges: &[
            packed_prices::fixed_writings::<0>,
            packed_prices::fixed_writings::<1>,
            packed_prices::fixed_writings::<2>,
            packed_prices::fixed_writings::<3>,
        ],
        random: packed_prices::random_writing,
        report: packed_prices::report_writings,
    },
];

/// Bytes that differ from place to place, so that one that is moved or left out shows.
pub fn pattern(len: usize) -> Vec<u8> {
    (0..len).map(|i| (i as u8).wrapping_mul(167) ^ (i >> 8) as u8 ^ 0x5A).collect()
}

/// The word in which the archive packs an outcome.
pub fn word(number: u8, branch: u8, ending: u8, steps: u32) -> u64 {
    u64::from(number) + 256 * u64::from(branch) + 65536 * u64::from(ending) + (u64::from(steps) << 32)
}

/// The volatility's bits and the outcome's word, as the archive gives them.
pub fn answer(run: &solver::Run) -> (u64, u64) {
    match run.answer {
        Ok(solution) => (bits_of(solution.volatility), word(0, solution.branch, solution.ending, run.count())),
        Err(number) => (NAN_BITS, word(number, 0, 0, run.count())),
    }
}

/// The same of a refusal before a run.
pub fn refused(number: u8) -> (u64, u64) {
    (NAN_BITS, word(number, 0, 0, 0))
}

pub fn text((bits, outcome): (u64, u64)) -> String {
    format!("{bits:016X} {:?}", ours::Outcome::from(outcome))
}

/// Where two strings of bytes first differ.
pub fn first_difference(ours: &[u8], rust: &[u8]) -> String {
    match ours.iter().zip(rust).position(|(a, b)| a != b) {
        Some(i) => format!(", byte {i}: {:02X} and {:02X}", ours[i], rust[i]),
        None => String::new(),
    }
}

/// Our solve with a trail of so many bytes, and the trail.
fn our_solve(question: Question, limit: i32, len: usize) -> ((u64, u64), Vec<u8>) {
    let [price, forward, strike, expiry] = question.floats;
    let mut trail = pattern(len);
    let (kind, rule_set) = (question.kind, question.rule_set);
    let found = ours::solve_with_trail(price, forward, strike, expiry, kind, limit, rule_set, &mut trail);
    (found, trail)
}

/// Compares one solve with a trail of so many bytes, and gives what the Rust has.
pub fn solve(tally: &mut Tally, question: Question, limit: i32, len: usize) -> ours::Outcome {
    let (found, trail) = our_solve(question, limit, len);
    let mut expected_trail = pattern(len);
    let expected = match question.market() {
        Ok(market) => {
            let run = solver::solve(question.rule_set, market, limit, Some(len));
            write_trail(&run.steps, &mut expected_trail);
            answer(&run)
        }
        Err(number) => refused(number),
    };
    let outcome = ours::Outcome::from(expected.1);
    count_solve(tally, question, limit, len, outcome);
    tally.count(found == expected && trail == expected_trail, || {
        let (found, expected) = (text(found), text(expected));
        let bytes = first_difference(&trail, &expected_trail);
        format!("{SOLVE}({}, {limit}, {len} bytes): {found}, the Rust has {expected}{bytes}", question.text())
    });
    if question.rule_set == 1 && caps::place(question) == Some(caps::Place::BelowBoth) {
        alike(tally, question, limit, len, (found, trail));
    }
    outcome
}

fn count_solve(tally: &mut Tally, question: Question, limit: i32, len: usize, outcome: ours::Outcome) {
    let case = (outcome.number, outcome.branch, outcome.ending, outcome.steps > 0);
    *tally.cases.entry(case).or_default() += 1;
    let mut causes = of_question(question);
    causes.extend((!is_long_enough(len, limit)).then_some("21"));
    tally.meet_causes(&causes);
    if causes.is_empty() {
        tally.caps.count(question, outcome);
    }
}

/// Below both caps rule set 1 has rule set 0's whole solution and trail: ours of one beside ours of the other.
fn alike(tally: &mut Tally, question: Question, limit: i32, len: usize, under_1: ((u64, u64), Vec<u8>)) {
    let under_0 = our_solve(question.under(0), limit, len);
    if under_0 == under_1 {
        tally.caps.alike += 1;
    } else {
        tally.fail(|| {
            let [first, second] = [under_0.0, under_1.0].map(text);
            let bytes = first_difference(&under_0.1, &under_1.1);
            format!("{SOLVE}({}, {limit}, {len} bytes): {second}, rule set 0 has {first}{bytes}", question.text())
        });
    }
}

fn wrapper(tally: &mut Tally, question: Question) {
    let [price, forward, strike, expiry] = question.floats;
    let (kind, rule_set) = (question.kind, question.rule_set);
    let found =
        ours::implied_volatility_from_a_transformed_rational_guess(price, forward, strike, expiry, kind, rule_set);
    let expected = match question.market() {
        Ok(market) => answer(&solver::implied_volatility_from_a_transformed_rational_guess(rule_set, market)),
        Err(number) => refused(number),
    };
    tally.meet_causes(&of_question(question));
    tally.count(found == expected, || {
        let (found, expected) = (text(found), text(expected));
        format!("{WRAPPER}({}): {found}, the Rust has {expected}", question.text())
    });
}

fn without_trail(tally: &mut Tally, question: Question, limit: i32) {
    let [price, forward, strike, expiry] = question.floats;
    let (kind, rule_set) = (question.kind, question.rule_set);
    let found = ours::solve_without_trail(price, forward, strike, expiry, kind, limit, rule_set);
    let expected = match question.market() {
        Ok(market) => answer(&solver::solve(rule_set, market, limit, None)),
        Err(number) => refused(number),
    };
    tally.meet_causes(&of_question(question));
    tally.count(found == expected, || {
        let (found, expected) = (text(found), text(expected));
        format!("{WITHOUT_TRAIL}({}, {limit}): {found}, the Rust has {expected}", question.text())
    });
}

fn target(tally: &mut Tally, question: Question) {
    let [price, forward, strike, expiry] = question.floats;
    let rule_set = question.rule_set;
    let found = ours::target(price, forward, strike, expiry, question.kind, rule_set);
    let expected = match question.market().and_then(|market| solver::target(rule_set, market)) {
        Ok(target) => (target.map_or(NAN_BITS, bits_of), 0),
        Err(number) => (NAN_BITS, number),
    };
    tally.meet_causes(&of_question(question));
    tally.count(found == expected, || format!("target({}): {found:X?}, the Rust has {expected:X?}", question.text()));
}

// ---- inputs

pub const LIMITS: [i32; 10] = [-1, 0, 1, 2, 3, 5, 20, 200, i32::MIN, i32::MAX];

/// The bytes that a trail is to have for this limit, or for 200 where that is too many: then 21 comes.
pub fn room(limit: i32) -> usize {
    STEP * limit.clamp(0, 200) as usize
}

/// A trail's bytes: mostly as many as it is to have, some more, and some less.
pub fn trail_bytes(words: &mut Words, limit: i32) -> usize {
    let room = room(limit);
    match words.below(64) {
        0 => room.saturating_sub(1),
        1 => words.below(room as u64 + 1) as usize,
        2 => 0,
        3..=20 => room + words.below(2 * STEP as u64) as usize,
        _ => room,
    }
}

fn solve_random(words: &mut Words, tally: &mut Tally) {
    let (question, limit) = (any_question(words), limit(words));
    let len = trail_bytes(words, limit);
    solve(tally, question, limit, len);
}

/// P1 to P6, and a market of each branch whose run ends for the step test and one whose run doesn't.
pub fn fixed_questions() -> Vec<Question> {
    let rows = [
        ([150.0, 100.0, 200.0, 4.0], 1),
        ([99.0, 200.0, 100.0, 1.0], 1),
        ([0.0, 100.0, 200.0, 1.0], 1),
        ([150.0, 100.0, 200.0, 0.25], 1),
        ([100.0, 200.0, 100.0, 4.0], 1),
        ([-0.0, 100.0, 100.0, 1.0], 2),
    ];
    let mut all: Vec<Question> = rows.into_iter().map(|(floats, kind)| Question::new(floats, kind)).collect();
    // Some parts of the cap, in the money and out of it.
    for (forward, strike) in [(100.0, 100.0), (100.0, 103.0), (100.0, 150.0), (7.0, 2.0), (1.0, 4000.0), (3e-5, 2e-9)] {
        for part in [1e-300, 1e-30, 1e-9, 0.001, 0.01, 0.05, 0.1, 0.2, 0.3, 0.4, 0.5, 0.6, 0.7, 0.8, 0.9, 0.99, 0.999] {
            for kind in [1, 2] {
                let less: f64 = if kind == 1 { forward - strike } else { strike - forward };
                let price = less.max(0.0) + forward.min(strike) * part;
                all.push(Question::new([price, forward, strike, 0.5], kind));
            }
        }
    }
    all.extend(
        sevens::SOLVES
            .map(|[price, forward, strike, expiry, kind]| Question::of([price, forward, strike, expiry], kind as u8)),
    );
    all
}

/// Every combination of what is refused, or just not, and of usual and extreme values.
fn combinations(mut each: impl FnMut(Question)) {
    let further = [1e-10, 1e-3, 5.0, 50.0, 99.0, 150.0, 1e8].map(f64::to_bits);
    let market_prices: Vec<u64> =
        prices().into_iter().chain(further).chain([f64::MAX.to_bits() | 1 << 63, 0x8000_0000_0000_0001]).collect();
    let expiries: Vec<u64> = [0.25, 1.0, 4.0, f64::MIN_POSITIVE, f64::MAX].map(f64::to_bits).to_vec();
    let refused = [0, 1, f64::MIN_POSITIVE.to_bits() - 1, 0x7FF0 << 48, 0x7FF8 << 48, 0xBFF0 << 48];
    let expiries = expiries.into_iter().chain(refused).collect();
    let values = [market_prices, prices(), prices(), expiries, KINDS.to_vec()];
    combine(&values, 0, &mut wide([]), &mut |[price, forward, strike, expiry, kind, ..]| {
        each(Question::of([price, forward, strike, expiry], kind as u8));
    });
}

/// The combinations, the fixed questions and those by the caps, under a rule set.
fn questions(rule_set: u32, mut each: impl FnMut(Question)) {
    combinations(|question| each(question.under(rule_set)));
    fixed_questions().into_iter().chain(caps::fixed_questions()).for_each(|question| each(question.under(rule_set)));
}

/// Every set of a question's causes, and under unknown rule sets what would be answered under a known one.
fn refused_questions(mut each: impl FnMut(Question)) {
    for question in fixed_questions().into_iter().step_by(16) {
        every_set(question, &mut each);
    }
    for rule_set in UNKNOWN {
        fixed_questions()
            .into_iter()
            .chain(caps::fixed_questions())
            .for_each(|question| each(question.under(rule_set)));
    }
}

fn solve_edges(tally: &mut Tally, rule_set: u32) {
    combinations(|question| {
        for limit in LIMITS {
            solve(tally, question.under(rule_set), limit, room(limit));
        }
    });
    for question in fixed_questions() {
        for limit in LIMITS {
            let room = room(limit);
            for len in [0, 1, room.saturating_sub(1), room, room + 1, room + STEP, room + 1000] {
                solve(tally, question.under(rule_set), limit, len);
            }
        }
    }
    for question in caps::fixed_questions() {
        LIMITS.into_iter().for_each(|limit| _ = solve(tally, question.under(rule_set), limit, room(limit)));
    }
}

/// With trails that are long enough, one byte short, and empty.
fn refused_solves(tally: &mut Tally) {
    refused_questions(|question| {
        for (limit, len) in [(2, 96), (2, 95), (2, 0), (0, 0), (i32::MAX, 0)] {
            solve(tally, question, limit, len);
        }
    });
}

/// Limits up to 200: some runs never meet the step test.
fn without_trail_edges(tally: &mut Tally, rule_set: u32) {
    questions(rule_set, |question| without_trail(tally, question, 2));
    for question in fixed_questions().into_iter().chain(caps::fixed_questions()) {
        let limits = LIMITS.into_iter().filter(|limit| *limit <= 200);
        limits.for_each(|limit| without_trail(tally, question.under(rule_set), limit));
    }
}

// ---- the run

/// Random inputs come in blocks; a block's inputs depend on the seed, the name and the block's number alone.
const BLOCK: u64 = 5_000;

impl Part {
    pub fn run(&self, run: &Run) -> Tally {
        let mut tally = run.in_parts(self.edges.len() as u64, |i, tally| (self.edges[i as usize])(tally));
        tally.print_progress(self.name, "edge values");
        tally.add(run.in_parts(run.inputs.div_ceil(BLOCK), |i, tally| {
            let mut words = Words::new(run.seed, self.name, i);
            (i * BLOCK..run.inputs.min((i + 1) * BLOCK)).for_each(|_| (self.random)(&mut words, tally));
        }));
        tally.print_progress(self.name, "random inputs");
        tally
    }
}

#[cfg(test)]
mod tests {
    use super::*;

    /// A trail of `room` bytes is long enough exactly where the limit isn't above 200.
    #[test]
    fn rooms() {
        for limit in LIMITS {
            assert_eq!(is_long_enough(room(limit), limit), limit <= 200);
        }
    }

    #[test]
    fn words_of_outcomes() {
        let found = ours::Outcome::from(word(7, 4, 2, 0x8000_0001));
        assert_eq!((found.number, found.branch, found.ending, found.steps), (7, 4, 2, 0x8000_0001));
    }

    /// The fixed markets reach every branch, ending and refusal of a market that isn't refused for an input.
    #[test]
    fn fixed_inputs_reach_everything() {
        if rust_over_rules::SOURCE.is_none() {
            return;
        }
        let mut tally = Tally::default();
        for question in fixed_questions() {
            for limit in LIMITS {
                solve(&mut tally, question, limit, room(limit));
            }
        }
        // But for what the combinations have.
        assert_eq!(tally.missing(), [1, 2, 3, 4, 24, 32].map(|number| format!("refusal {number}")));
    }
}
