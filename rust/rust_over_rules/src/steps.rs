//! What a run of the Rust's solver did, from the calls that `rust_source` puts into so_rational.rs.

use std::cell::RefCell;

/// A completed step, in the order of a trail's record: s, computed price, vega, the ends after the move, s after.
#[derive(Clone, Copy, Debug)]
pub struct Step {
    pub s: f64,
    pub b: f64,
    pub vega: f64,
    pub left: f64,
    pub right: f64,
    pub after: f64,
}

/// The branch, 0 before a guess; whether the step test held; and the completed steps.
#[derive(Debug, Default)]
pub struct Trace {
    pub branch: u8,
    pub close: bool,
    pub steps: Vec<Step>,
}

/// A run of more steps than this has no end in sight, and is not one to compare: it would take all memory.
const MOST: usize = 1_000_000;

thread_local! {
    static TRACE: RefCell<Trace> = RefCell::default();
}

pub fn set_branch(number: u8) {
    TRACE.with_borrow_mut(|trace| trace.branch = number);
}

pub fn set_close() {
    TRACE.with_borrow_mut(|trace| trace.close = true);
}

pub fn add_step(s: f64, b: f64, vega: f64, left: f64, right: f64, after: f64) {
    TRACE.with_borrow_mut(|trace| {
        assert!(trace.steps.len() < MOST, "a run without an end");
        trace.steps.push(Step { s, b, vega, left, right, after });
    });
}

/// What `run` answers, and its trace on this thread.
pub fn watch<T>(run: impl FnOnce() -> T) -> (T, Trace) {
    TRACE.take();
    let answer = run();
    (answer, TRACE.take())
}
