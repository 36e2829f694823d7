//! One function's comparison: the edge values in all combinations and the borders, then random inputs in blocks. A block's
//! inputs depend on the seed, the function and the block's number alone, so a run is the same with any number of threads.

use crate::{
    functions::{Answer, Function},
    inputs::Arguments,
    tally::Tally,
};
use random_words::Words;
use std::thread;

const BLOCK: u64 = 50_000;
/// After so many inputs a line says how far the run is.
const ROUND: u64 = 50 * BLOCK;

fn text((bits, number): Answer) -> String {
    if number == 0 {
        format!("{bits:016X}")
    } else {
        format!("{bits:016X} refused with {number}")
    }
}

fn compare(function: &Function, arguments: Arguments, tally: &mut Tally) {
    let (ours, rust) = ((function.ours)(arguments), (function.rust)(arguments));
    tally.count(ours == rust, || {
        let words: Vec<String> = arguments[..function.arguments].iter().map(|x| format!("{x:016X}")).collect();
        format!("{}({}): {}, the Rust has {}", function.name, words.join(", "), text(ours), text(rust))
    });
}

/// Fills the arguments from `place` on with all combinations of their values.
pub fn combine(values: &[Vec<u64>], place: usize, arguments: &mut Arguments, each: &mut impl FnMut(Arguments)) {
    if place == values.len() {
        return each(*arguments);
    }
    for &value in &values[place] {
        arguments[place] = value;
        combine(values, place + 1, arguments, each);
    }
}

pub struct Run {
    pub seed: u64,
    pub inputs: u64,
    pub threads: u64,
}

impl Run {
    /// Compares one function and prints how far it is.
    pub fn function(&self, function: &Function) -> Tally {
        let mut tally = self.edges(function);
        tally.print_progress(function.name, "edge values");
        let mut done = 0;
        while done < self.inputs {
            let next = (done + ROUND).min(self.inputs);
            tally.add(self.random(function, done, next));
            done = next;
            tally.print_progress(function.name, "random inputs");
        }
        tally
    }

    /// Gives the parts 0 .. parts to the threads, and adds up what they count, in the parts' order.
    pub fn in_parts(&self, parts: u64, part: impl Fn(u64, &mut Tally) + Sync) -> Tally {
        let tally_of = |i| {
            let mut tally = Tally::default();
            part(i, &mut tally);
            (i, tally)
        };
        let mut all: Vec<(u64, Tally)> = thread::scope(|scope| {
            let start = |t| scope.spawn(move || (t..parts).step_by(self.threads as usize).map(tally_of).collect());
            let threads: Vec<thread::ScopedJoinHandle<Vec<_>>> = (0..self.threads).map(start).collect();
            threads.into_iter().flat_map(|t| t.join().expect("a comparison doesn't panic")).collect()
        });
        all.sort_by_key(|(i, _)| *i);
        let mut sum = Tally::default();
        all.into_iter().for_each(|(_, tally)| sum.add(tally));
        sum
    }

    fn edges(&self, function: &Function) -> Tally {
        let edges = (function.edges)();
        let mut tally = self.in_parts(edges.values[0].len() as u64, |i, tally| {
            let mut arguments = [0; 9];
            arguments[0] = edges.values[0][i as usize];
            combine(&edges.values, 1, &mut arguments, &mut |a| compare(function, a, tally));
        });
        edges.borders.into_iter().chain(edges.samples).for_each(|a| compare(function, a, &mut tally));
        tally
    }

    fn random(&self, function: &Function, from: u64, to: u64) -> Tally {
        self.in_parts((to - from).div_ceil(BLOCK), |i, tally| {
            let start = from + i * BLOCK;
            let mut words = Words::new(self.seed, function.name, start / BLOCK);
            for _ in start..to.min(start + BLOCK) {
                compare(function, (function.inputs)(&mut words), tally);
            }
        })
    }
}
