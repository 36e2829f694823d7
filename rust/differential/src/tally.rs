//! What a part of a run counts: comparisons, differences, and what the calls among them reach.

use crate::{caps, packed_prices, roots};
use std::collections::BTreeMap;

/// So many differences of a function are printed.
const MOST_LINES: usize = 10;

/// The result of a solve: number, branch, ending, and whether there was a step.
pub type Case = (u8, u8, u8, bool);

pub fn text_of_case((number, branch, ending, stepped): Case) -> String {
    let what = match number {
        0 => format!("branch {branch}, ending {ending}"),
        _ => format!("refused with {number}"),
    };
    format!("{what}, {}", if stepped { "after steps" } else { "no step" })
}

/// Prints each case with its count, and gives those without one.
pub fn report_counts(what: &str, counts: impl IntoIterator<Item = (&'static str, u64)>) -> Vec<String> {
    let mut missing = Vec::new();
    println!("{what}");
    for (case, count) in counts {
        println!("  {case}: {count}");
        missing.extend((count == 0).then(|| case.to_string()));
    }
    missing
}

#[derive(Default)]
pub struct Tally {
    pub comparisons: u64,
    pub differences: u64,
    /// The first differences.
    pub lines: Vec<String>,
    /// How many solves with a trail had each result.
    pub cases: BTreeMap<Case, u64>,
    /// How many solves with a trail met each case of the two caps.
    pub caps: caps::Counts,
    /// What calls of the square root met.
    pub roots: roots::Counts,
    /// What packed prices and floats met that are written as such.
    pub packed: packed_prices::Counts,
    /// How many calls met each of their cases; of a refusal, with what else would refuse the call.
    pub met: BTreeMap<(&'static str, &'static str), u64>,
}

impl Tally {
    /// Counts a comparison; `line` is called where it fails.
    pub fn count(&mut self, same: bool, line: impl FnOnce() -> String) {
        self.comparisons += 1;
        if !same {
            self.fail(line);
        }
    }

    /// Counts a difference.
    pub fn fail(&mut self, line: impl FnOnce() -> String) {
        self.differences += 1;
        if self.lines.len() < MOST_LINES {
            self.lines.push(line());
        }
    }

    pub fn add(&mut self, other: Tally) {
        self.comparisons += other.comparisons;
        self.differences += other.differences;
        let room = MOST_LINES - self.lines.len();
        self.lines.extend(other.lines.into_iter().take(room));
        for (case, count) in other.cases {
            *self.cases.entry(case).or_default() += count;
        }
        self.caps.add(other.caps);
        self.roots.add(other.roots);
        self.packed.add(other.packed);
        for (case, count) in other.met {
            *self.met.entry(case).or_default() += count;
        }
    }

    pub fn print_progress(&self, name: &str, what: &str) {
        println!("{name} {} {} different ({what})", self.comparisons, self.differences);
    }

    fn solves(&self, of: impl Fn(&Case) -> bool) -> u64 {
        self.cases.iter().filter(|(case, _)| of(case)).map(|(_, count)| count).sum()
    }

    pub fn print_solves(&self) {
        println!("solves by branch and ending (0 no loop, 1 step test, 2 limit), and by the number of a refusal:");
        for (&case, count) in &self.cases {
            println!("  {}: {count}", text_of_case(case));
        }
    }

    /// Counts a case of a call.
    pub fn meet(&mut self, case: &'static str, and: &'static str) {
        *self.met.entry((case, and)).or_default() += 1;
    }

    /// How many calls met a case.
    pub fn count_of(&self, case: &'static str, and: &'static str) -> u64 {
        self.met.get(&(case, and)).copied().unwrap_or(0)
    }

    /// Counts a refused call by the first of its causes, and each later one with it.
    pub fn meet_causes(&mut self, causes: &[&'static str]) {
        if let [first, later @ ..] = causes {
            self.meet(first, "");
            later.iter().for_each(|later| self.meet(first, later));
        }
    }

    /// Prints how many calls each check refuses, and gives what none met: a check by itself, or two causes in one call.
    /// `together` says whether a call can have both.
    pub fn report_checks(&self, checks: &[&'static str], together: impl Fn(&str, &str) -> bool) -> Vec<String> {
        let mut missing = Vec::new();
        println!("calls by the check that refuses them, and how many of them a later check would refuse, too:");
        for (i, first) in checks.iter().enumerate() {
            let count = |later| self.count_of(first, later);
            let later: Vec<&str> = checks[i + 1..].iter().copied().filter(|later| together(first, later)).collect();
            let counts: Vec<String> = later.iter().map(|later| format!(", {later}: {}", count(later))).collect();
            println!("  {first}: {}{}", count(""), counts.concat());
            missing.extend([""].into_iter().chain(later).filter(|later| count(later) == 0).map(|later| match later {
                "" => first.to_string(),
                later => format!("{first} before {later}"),
            }));
        }
        missing
    }

    /// Prints how many calls met each case, and gives those that none met.
    pub fn report_cases(&self, what: &str, cases: impl IntoIterator<Item = &'static str>) -> Vec<String> {
        report_counts(what, cases.into_iter().map(|case| (case, self.count_of(case, ""))))
    }

    /// What the inputs are to reach and did not. Branch 5 isn't among it: it needs a b_h below half of b_max, and the tests
    /// of `rust_over_rules` find none in a scan over x. Nor is 6: no input is known that gives the guess's cubic an infinite
    /// abscissa. Both are compared where they come.
    pub fn missing(&self) -> Vec<String> {
        let endings = (1..5).flat_map(|branch| [(branch, 1), (branch, 2)]);
        let endings = [(0, 0)].into_iter().chain(endings).filter_map(|(branch, ending)| {
            let met = self.solves(|case| (case.0, case.1, case.2) == (0, branch, ending));
            (met == 0).then(|| format!("branch {branch} with ending {ending}"))
        });
        let numbers = [1, 2, 3, 4, 7, 21, 24, 32].into_iter().filter_map(|number| {
            let met = self.solves(|case| case.0 == number);
            (met == 0).then(|| format!("refusal {number}"))
        });
        endings.chain(numbers).collect()
    }
}
