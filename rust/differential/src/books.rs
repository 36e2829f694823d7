//! file, recheck, read and relist's line beside document 01's model: the answer, and every byte of the book or the line.

use crate::{
    caps,
    causes::{every_set, of_question, with_causes, SETS},
    markets::{any_question, limit, Question},
    rule_sets::{self, KNOWN, UNKNOWN},
    solves::{first_difference, fixed_questions, pattern, word, LIMITS},
    tally::Tally,
};
use gintubalos::bits as ours;
use random_words::Words;
use rust_over_rules::book::{self, market_and_limit, record, Refusal, RECORD};
use rust_over_rules::solver::solve;
use std::hint::black_box;

/// Whether a run of this limit is one to compare under any rule set: a limit of many millions is only where the step test or
/// a refusal cuts it short under each, so that a call which takes one for another still ends.
pub fn is_bounded(question: Question, limit: i32) -> bool {
    limit <= 200 || KNOWN.into_iter().all(|rule_set| ends_by_itself(question.under(rule_set)))
}

fn ends_by_itself(question: Question) -> bool {
    let run = |market| solve(question.rule_set, market, 200, None);
    question.market().map_or(true, |market| run(market).answer.map_or(true, |found| found.ending != 2))
}

/// What a record asks for, under rule set 0.
fn question_of(bytes: &[u8; RECORD]) -> Question {
    Question::of([0, 8, 16, 24].map(|at| u64::from_le_bytes(std::array::from_fn(|i| bytes[at + i]))), bytes[48])
}

fn is_bounded_record(bytes: &[u8; RECORD]) -> bool {
    market_and_limit(bytes).map_or(true, |(_, limit)| is_bounded(question_of(bytes), limit))
}

fn hex(bytes: &[u8]) -> String {
    bytes.iter().map(|byte| format!("{byte:02X}")).collect()
}

fn outcome(refusal: Refusal) -> u64 {
    word(refusal.number, 0, 0, refusal.steps)
}

// ---- comparisons

fn file(tally: &mut Tally, question: Question, limit: i32, old: &[u8], used: u64) {
    let [price, forward, strike, expiry] = question.floats;
    let mut book = old.to_vec();
    let (kind, rule_set) = (question.kind, question.rule_set);
    let found = ours::file(price, forward, strike, expiry, kind, limit, rule_set, &mut book, used);
    let mut expected_book = old.to_vec();
    let expected = match question.market() {
        Ok(market) => match book::file(rule_set, market, limit, &mut expected_book, used) {
            // The word has no steps where it is filed: they stand in the book.
            Ok(count) => (count, 0),
            Err(refusal) => (0, outcome(refusal)),
        },
        Err(number) => (0, word(number, 0, 0, 0)),
    };
    let mut causes = of_question(question);
    causes.extend((used > slots(old)).then_some("23"));
    causes.extend((used == slots(old)).then_some("22"));
    tally.meet_causes(&causes);
    tally.count(found == expected && book == expected_book, || {
        let bytes = first_difference(&book, &expected_book);
        let len = old.len();
        format!(
            "file({}, {limit}, {len} bytes, {used}): {found:X?}, document 01 has {expected:X?}{bytes}",
            question.text()
        )
    });
}

/// Compares one recheck, and gives what the model has.
fn recheck(tally: &mut Tally, old: &[u8], used: u64, k: u64, rule_set: u32) -> Result<bool, Refusal> {
    let copy = old.to_vec();
    let found = ours::recheck(black_box(&copy), used, k, rule_set);
    let answer = book::recheck(old, used, k, rule_set);
    let expected = match answer {
        Ok(agrees) => (u8::from(agrees), 0),
        Err(refusal) => (0, outcome(refusal)),
    };
    tally.meet_causes(&causes_at_recheck(old, used, k, rule_set));
    tally.count(found == expected && black_box(&copy) == old, || {
        let part = book::read(old, used, k).map_or(String::new(), hex);
        let len = old.len();
        format!(
            "recheck({len} bytes, {used}, {k}, rule set {rule_set}) of {part}: {found:X?}, the model has {expected:X?}"
        )
    });
    answer
}

/// What refuses a recheck, each cause looked for alone: without a record, 23 and an unknown rule set alone.
fn causes_at_recheck(old: &[u8], used: u64, k: u64, rule_set: u32) -> Vec<&'static str> {
    let is_there = k < used && used <= slots(old);
    let record = is_there.then(|| &old[RECORD * k as usize..]).and_then(|bytes| bytes.first_chunk::<RECORD>());
    // Of the kind's byte, 24 is said below with the other bytes.
    let question = record.map_or(Question::new([1.0; 4], 1), question_of).under(rule_set);
    let causes = of_question(question).into_iter().filter(|cause| *cause != "24");
    let layout = match record {
        None => Some("23"),
        Some(bytes) => is_outside_the_layout(bytes).then_some("24"),
    };
    layout.into_iter().chain(causes).collect()
}

fn is_outside_the_layout(record: &[u8; RECORD]) -> bool {
    let [kind, branch, ending, spare @ ..] = &record[48..] else { unreachable!("a record has 64 bytes") };
    !matches!(kind, 1 | 2) || *branch > 5 || *ending > 2 || spare.iter().any(|byte| *byte != 0)
}

// ---- records that were filed under one rule set and are rechecked under another

const FILED: [[&str; 2]; 2] = [
    ["filed under 0, asked under 0", "filed under 0, asked under 1"],
    ["filed under 1, asked under 0", "filed under 1, asked under 1"],
];
const PLACES: [[&str; 2]; 2] = [
    ["below both caps, differs", "below both caps, agrees"],
    ["between the caps, differs", "between the caps, agrees"],
];

/// Compares the recheck of a record as the question's rule set files it, and says whether there is one.
fn recheck_filed(tally: &mut Tally, question: Question, limit: i32, rule_set: u32) -> bool {
    let Some(bytes) = filed(question, limit) else { return false };
    let answer = recheck(tally, &bytes, 1, 0, rule_set);
    let place = match caps::place(question) {
        Some(caps::Place::BelowBoth) => Some(0),
        Some(caps::Place::Between) => Some(1),
        _ => None,
    };
    if let (Ok(agrees), Some(place)) = (answer, place) {
        tally.meet(FILED[question.rule_set as usize][rule_set as usize], PLACES[place][usize::from(agrees)]);
    }
    true
}

/// Prints how often such records agree, and gives what was to be met and was not: a record of a price below both caps agrees
/// under either rule set, one of a price between them not always under the other.
pub fn report_rechecks(tally: &Tally) -> Vec<String> {
    let mut missing = Vec::new();
    println!("records by the rule sets under which they were filed and rechecked:");
    for (filed, asked) in [(0, 0), (0, 1), (1, 0), (1, 1)] {
        let case = FILED[filed][asked];
        let counts = PLACES.concat().into_iter().map(|what| format!("; {what}: {}", tally.count_of(case, what)));
        println!("  {case}{}", counts.collect::<String>());
        let between = if filed == asked { PLACES[1][1] } else { PLACES[1][0] };
        let demanded = [PLACES[0][1], between].into_iter().filter(|what| tally.count_of(case, what) == 0);
        missing.extend(demanded.map(|what| format!("{case}: {what}")));
    }
    missing
}

fn read(tally: &mut Tally, old: &[u8], used: u64, k: u64) {
    let copy = old.to_vec();
    let found = ours::read(black_box(&copy), used, k);
    let expected = match book::read(old, used, k) {
        Ok(part) => ((part.as_ptr() as usize - old.as_ptr() as usize) as u64, 0),
        Err(number) => (0, number),
    };
    tally.count(found == expected && black_box(&copy) == old, || {
        let len = old.len();
        format!("read({len} bytes, {used}, {k}): {found:?}, document 01 has {expected:?}")
    });
}

/// An `out` under 128 bytes takes no line.
fn line(tally: &mut Tally, index: u64, bytes: &[u8], len: usize) {
    let mut out = pattern(len);
    let found = ours::line(index, bytes, &mut out);
    let mut expected_out = pattern(len);
    let mut expected = 0;
    if len >= 128 {
        let line = book::line(index, bytes);
        expected = line.len();
        expected_out[..expected].copy_from_slice(line.as_bytes());
    }
    tally.count(found == expected && out == expected_out, || {
        let [ours, rust] = [&out, &expected_out].map(|out| out[..len.min(128)].escape_ascii().to_string());
        format!("line({index}, {}, {len} bytes): {found} `{ours}`, document 01 has {expected} `{rust}`", hex(bytes))
    });
}

// ---- inputs

/// Used counts and record numbers about a book's slots, and where 64 times the number leaves a word.
fn counts(slots: u64) -> Vec<u64> {
    let mut all: Vec<u64> = (0..=slots + 2).collect();
    all.extend([1 << 32, 1 << 57, 1 << 58, (1 << 58) + 1, 1 << 63, u64::MAX / 64, u64::MAX - 1, u64::MAX]);
    all
}

/// Books without a slot, with a part of one, and with up to ten and a part.
const LENGTHS: [usize; 12] = [0, 1, 63, 64, 65, 127, 128, 129, 191, 192, 640, 703];

/// The record that is filed for a question; none where it is refused.
fn filed(question: Question, limit: i32) -> Option<[u8; RECORD]> {
    let market = question.market().ok()?;
    record(market, limit, &solve(question.rule_set, market, limit, None)).ok()
}

/// The record that is filed for a question, or one of zeros where it is refused.
fn record_of(question: Question, limit: i32) -> [u8; RECORD] {
    filed(question, limit).unwrap_or([0; RECORD])
}

/// A record with this question's input, which may be refused, and an answer that is not looked at.
fn record_asking(question: Question) -> [u8; RECORD] {
    let mut bytes = [0; RECORD];
    question
        .floats
        .into_iter()
        .enumerate()
        .for_each(|(i, x)| bytes[8 * i..8 * i + 8].copy_from_slice(&x.to_le_bytes()));
    (bytes[40], bytes[48]) = (2, question.kind);
    bytes
}

/// A limit for a solve without a trail.
fn bounded_limit(words: &mut Words, question: Question) -> i32 {
    let limit = limit(words);
    if is_bounded(question, limit) {
        limit
    } else {
        2
    }
}

/// A record as it was filed, with one byte or more changed, or of other bytes altogether.
fn any_record(words: &mut Words) -> [u8; RECORD] {
    let question = any_question(words);
    let limit = bounded_limit(words, question);
    let mut bytes = record_of(question, limit);
    match words.below(8) {
        0..=2 => {}
        3..=5 => bytes[words.below(64) as usize] = words.any() as u8,
        6 => {
            // What the layout leaves out, or just not.
            bytes[48] = words.below(4) as u8;
            bytes[49] = words.below(8) as u8;
            bytes[50] = words.below(4) as u8;
            bytes[51 + words.below(13) as usize] = (words.below(4) / 3) as u8;
        }
        _ => {
            for byte in &mut bytes[..48] {
                *byte = words.any() as u8;
            }
            bytes[48..].fill(0);
            bytes[48] = 1;
        }
    }
    if is_bounded_record(&bytes) {
        bytes
    } else {
        record_of(question, 2)
    }
}

fn any_book(words: &mut Words, mut slot: impl FnMut(&mut Words) -> [u8; RECORD]) -> Vec<u8> {
    let mut book: Vec<u8> = (0..words.below(4)).flat_map(|_| slot(words)).collect();
    if words.below(2) == 0 {
        book.extend(pattern(words.below(64) as usize));
    }
    book
}

fn slots(book: &[u8]) -> u64 {
    (book.len() / RECORD) as u64
}

/// A used count and a record number, which are mostly the book's.
fn used_and_k(words: &mut Words, book: &[u8]) -> (u64, u64) {
    let slots = slots(book);
    match words.below(8) {
        0 => (words.choice(&counts(slots)), words.choice(&counts(slots))),
        1 => (words.any(), words.any()),
        _ => {
            let used = words.below(slots + 1);
            (used, words.below(used + 1))
        }
    }
}

pub fn file_random(words: &mut Words, tally: &mut Tally) {
    let question = any_question(words);
    let limit = bounded_limit(words, question);
    let book = any_book(words, |words| std::array::from_fn(|_| words.any() as u8));
    let used = if words.below(8) == 0 { words.choice(&counts(slots(&book))) } else { words.below(slots(&book) + 1) };
    file(tally, question, limit, &book, used);
}

pub fn recheck_random(words: &mut Words, tally: &mut Tally) {
    if words.below(2) == 0 {
        let question = any_question(words);
        let question = question.under(question.rule_set % 2);
        let limit = bounded_limit(words, question).min(200);
        let rule_set = rule_sets::known(words.any());
        if recheck_filed(tally, question, limit, rule_set) {
            return;
        }
    }
    let book = any_book(words, any_record);
    let (used, k) = used_and_k(words, &book);
    // The result is compared; nothing else asks for it.
    _ = recheck(tally, &book, used, k, rule_sets::any(words));
}

pub fn read_random(words: &mut Words, tally: &mut Tally) {
    let book = pattern(words.below(1000) as usize);
    let (used, k) = used_and_k(words, &book);
    read(tally, &book, used, k);
}

pub fn line_random(words: &mut Words, tally: &mut Tally) {
    let mut bytes = any_record(words).to_vec();
    match words.below(8) {
        0 => bytes.truncate(words.below(64) as usize),
        1 => bytes.extend(pattern(words.below(70) as usize)),
        _ => {}
    }
    let index = words.any() >> words.below(64);
    let len = words.choice(&[128, 128, 129, 200, 127, 0]);
    line(tally, index, &bytes, len);
}

/// The fixed questions and what is refused for an input.
fn questions() -> Vec<Question> {
    let mut all = fixed_questions();
    let nan = f64::NAN;
    let refused = [[nan, nan, nan, nan], [1.0, 0.0, nan, 0.0], [1.0, 1.0, -1.0, nan], [1.0, 1.0, 1.0, f64::INFINITY]];
    all.extend(refused.map(|floats| Question::new(floats, 1)));
    all.extend([0, 3, 255].map(|kind| Question::new([1.0, 2.0, 3.0, 1.0], kind)));
    all
}

pub fn file_edges(tally: &mut Tally, rule_set: u32) {
    for question in questions().into_iter().chain(caps::fixed_questions()) {
        let question = question.under(rule_set);
        for limit in LIMITS {
            if is_bounded(question, limit) {
                (0..2).for_each(|used| file(tally, question, limit, &pattern(2 * RECORD + 7), used));
            }
        }
    }
    for question in questions() {
        for len in LENGTHS {
            for used in counts(len as u64 / 64) {
                file(tally, question.under(rule_set), 2, &pattern(len), used);
            }
        }
    }
}

/// Every set of a question's causes with a free slot, a full book, and a used count that is too large; and under unknown rule
/// sets what would be filed under a known one.
pub fn refused_filings(tally: &mut Tally) {
    let mut each = |question| {
        for (len, used) in [(2 * RECORD, 1), (2 * RECORD, 2), (2 * RECORD + 7, 3), (0, 0), (0, u64::MAX)] {
            file(tally, question, 2, &pattern(len), used);
        }
    };
    for question in fixed_questions().into_iter().step_by(16) {
        every_set(question, &mut each);
    }
    for rule_set in UNKNOWN {
        questions().into_iter().chain(caps::fixed_questions()).for_each(|question| each(question.under(rule_set)));
    }
}

/// Records that were filed under one rule set, rechecked under each; every set of causes; and unknown rule sets.
pub fn other_rechecks(tally: &mut Tally) {
    for question in fixed_questions().into_iter().chain(caps::fixed_questions()) {
        for (filed, asked) in [(0, 0), (0, 1), (1, 0), (1, 1)] {
            [-1, 2, 5].into_iter().for_each(|limit| _ = recheck_filed(tally, question.under(filed), limit, asked));
        }
        for rule_set in UNKNOWN {
            let bytes = record_of(question, 2);
            for (used, k) in [(1, 0), (1, 1), (2, 0), (u64::MAX, 0)] {
                _ = recheck(tally, &bytes, used, k, rule_set);
            }
        }
    }
    for question in fixed_questions().into_iter().step_by(16) {
        for set in 0..SETS {
            for turn in 0..12 {
                let question = with_causes(question, set, turn);
                let mut bytes = record_asking(question);
                (0..2).for_each(|k| _ = recheck(tally, &bytes, 1, k, question.rule_set));
                bytes[49 + turn as usize] = 6;
                (0..2).for_each(|k| _ = recheck(tally, &bytes, 1, k, question.rule_set));
            }
        }
    }
}

/// Each record of a fixed market as it was filed, and changed in each single byte: recheck says no exactly where the bytes
/// of an answer are changed, and 24 comes for what the layout leaves out.
pub fn recheck_edges(tally: &mut Tally, rule_set: u32) {
    let mut recheck = |book: &[u8], used, k| _ = recheck(tally, book, used, k, rule_set);
    // The limits in turn, since the changed bytes are many.
    for (question, limit) in questions().into_iter().zip(LIMITS.into_iter().cycle()) {
        let question = question.under(rule_set);
        let bytes = record_of(question, if is_bounded(question, limit) { limit } else { 2 });
        recheck(&bytes, 1, 0);
        for i in 0..RECORD {
            let mut other = bytes;
            for value in [0, 1, 2, 3, 5, 6, 0x7F, 0xFF, bytes[i] ^ 1, bytes[i] ^ 0x80] {
                other[i] = value;
                if is_bounded_record(&other) {
                    recheck(&other, 1, 0);
                }
            }
        }
    }
    let records = fixed_questions().into_iter().take(10).flat_map(|question| record_of(question.under(rule_set), 2));
    let book: Vec<u8> = records.chain(pattern(63)).collect();
    for len in LENGTHS {
        for used in counts(len as u64 / 64) {
            for k in counts(len as u64 / 64) {
                recheck(&book[..len], used, k);
            }
        }
    }
}

pub fn read_edges(tally: &mut Tally) {
    for len in LENGTHS {
        for used in counts(len as u64 / 64) {
            for k in counts(len as u64 / 64) {
                read(tally, &pattern(len), used, k);
            }
        }
    }
}

pub fn line_edges(tally: &mut Tally) {
    let powers = (0..20).map(|n| 10_u64.pow(n));
    let indices: Vec<u64> = powers.flat_map(|p| [p - 1, p]).chain([u64::MAX]).collect();
    for question in questions() {
        let mut bytes = record_of(question, 200);
        for &index in &indices {
            line(tally, index, &bytes, 128);
        }
        for len in [0, 1, 127, 128, 129, 1000] {
            line(tally, 7, &bytes, len);
        }
        for len in [0, 1, 48, 63] {
            line(tally, 7, &bytes[..len], 128);
        }
        line(tally, 7, &[bytes, bytes].concat(), 128);
        for i in 48..RECORD {
            let old = bytes[i];
            for value in [0, 1, 2, 3, 5, 6, 0xFF] {
                bytes[i] = value;
                line(tally, 7, &bytes, 128);
            }
            bytes[i] = old;
        }
    }
}
