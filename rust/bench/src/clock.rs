//! The same inputs for all sides, in small blocks by turns, and of each side its best block: what else the machine does
//! slows a block, and nothing makes one faster.

use gintubalos::probe::in_default;
use random_words::Words;
use std::{
    hint::black_box,
    time::{Duration, Instant},
};

/// A block is long against the clock's own step, and short against the machine's other work.
const BLOCK: Duration = Duration::from_micros(100);

/// How long a row is measured, and how many blocks a side has at least and at most.
#[derive(Clone, Copy)]
pub struct Effort {
    pub row: Duration,
    pub least: usize,
    pub most: usize,
}

pub const FULL: Effort = Effort { row: Duration::from_millis(1200), least: 20, most: 1000 };
pub const QUICK: Effort = Effort { row: Duration::from_millis(150), least: 5, most: 100 };

/// A side's work over a slice of inputs; its answers' sum keeps the work from being left out.
pub type Side<'a, I> = &'a mut dyn FnMut(&[I]) -> u64;

/// A function of one input, over a slice.
pub fn over<I>(mut function: impl FnMut(&I) -> u64) -> impl FnMut(&[I]) -> u64 {
    move |inputs| inputs.iter().fold(0, |sum: u64, input| sum.wrapping_add(function(black_box(input))))
}

/// ns per call of each side.
pub fn measure<I, const SIDES: usize>(inputs: &[I], sides: [Side<I>; SIDES], effort: Effort) -> [f64; SIDES] {
    // The first turn warms the caches and says how long a block is.
    let mut repeats = [1; SIDES];
    let mut turn = Duration::ZERO;
    let mut sides = sides;
    for (side, repeat) in sides.iter_mut().zip(&mut repeats) {
        let once = time(|| side(inputs)).min(time(|| side(inputs)));
        *repeat = (BLOCK.as_nanos() / once.as_nanos().max(1) + 1) as u32;
        turn += once * *repeat;
    }
    let turns = (effort.row.as_nanos() / turn.as_nanos().max(1)) as usize;
    let mut best = [Duration::MAX; SIDES];
    for n in 0..turns.clamp(effort.least, effort.most) {
        for k in 0..SIDES {
            // Another side begins each turn.
            let k = (n + k) % SIDES;
            let block = time(|| (0..repeats[k]).fold(0, |sum: u64, _| sum.wrapping_add(sides[k](inputs))));
            best[k] = best[k].min(block);
        }
    }
    std::array::from_fn(|k| best[k].as_nanos() as f64 / f64::from(repeats[k]) / inputs.len() as f64)
}

/// ns per call without the look at the environment and with it. Their difference is small against what else the machine
/// does, so that either has the best time of each small part of the inputs, and chance says which of them begins.
pub fn measure_look<I>(inputs: &[I], call: impl Fn(&I) -> u64, turns: usize) -> [f64; 2] {
    const PART: usize = 256;
    let sides: [Side<I>; 2] = [&mut over(&call), &mut over(|input| in_default(|| call(input)))];
    let mut words = Words::new(1, "turns", 0);
    let mut best = vec![[Duration::MAX; 2]; inputs.len() / PART];
    for _ in 0..turns {
        for (part, best) in inputs.chunks_exact(PART).zip(&mut best) {
            let first = words.below(2) as usize;
            for k in [first, 1 - first] {
                best[k] = best[k].min(time(|| sides[k](part)));
            }
        }
    }
    let calls = (best.len() * PART) as f64;
    [0, 1].map(|k| best.iter().map(|best| best[k]).sum::<Duration>().as_nanos() as f64 / calls)
}

fn time(work: impl FnOnce() -> u64) -> Duration {
    let start = Instant::now();
    black_box(work());
    start.elapsed()
}
