//! Compares the proved functions with the Rust, bit for bit.
//!
//! The last line of a run is `N compared, M differences`. Exit status: 0 no difference; 1 a difference, the first ones in
//! the lines above, or a case of a call that was to be met (a branch, an ending, a price by a cap, two causes of a refusal,
//! a digit at each turn, a half-byte at each place) and that no input met; 2 bad usage; 3 the Rust's source wasn't at hand
//! when this was built, and nothing was compared.

mod accuracy;
mod bid_ask;
mod board;
mod board_calls;
mod board_layout;
mod board_lists;
mod board_samples;
mod boards;
mod books;
mod borders;
mod caps;
mod causes;
mod compare;
mod damaged_boards;
mod digits;
mod edges;
mod functions;
mod inputs;
mod markets;
mod packed;
mod packed_inputs;
mod packed_prices;
mod packed_samples;
mod pairs;
mod prices;
mod records;
mod root_inputs;
mod root_samples;
mod roots;
mod rule_sets;
mod samples;
mod search;
mod sevens;
mod solves;
mod tally;

use compare::Run;
use functions::{Function, FUNCTIONS};
use solves::{Part, PARTS};
use std::{env, process::exit, thread};
use tally::Tally;

const USAGE: &str = "usage: differential [--quick] [--function NAME] [--inputs N] [--seed N] [--threads N]
       differential --search [--inputs N] [--seed N]
       differential --samples | --accuracy < TABLE

  --quick          fewer random inputs: under a minute, for the gate
  --function NAME  this function alone
  --inputs N       random inputs of each function (default 10000000; of sqrt 100000000 more, of solve_with_trail 2000000,
                   of other calls fewer); one of the board is a list of calls, one of sqrt_digits has every turn, and
                   what packed_read accepts is written again
  --seed N         other random inputs (default 1)
  --threads N      default: as many as the machine has processors
  --search         looks for refusals of `black` and solve at the asymptotic expansion's borders
  --samples        writes the list that crates/samples replays, the references' answers, to standard output
  --accuracy       measures document 01's rules over a table of rust/accuracy/table.py on standard input";

const INPUTS: u64 = 10_000_000;
const QUICK: u64 = 2_000_000;

/// What the command line asks for.
struct Options {
    quick: bool,
    samples: bool,
    search: bool,
    accuracy: bool,
    function: Option<String>,
    inputs: Option<u64>,
    seed: u64,
    threads: u64,
}

fn usage(problem: &str) -> ! {
    eprintln!("differential: {problem}\n{USAGE}");
    exit(2)
}

fn number(word: Option<String>) -> u64 {
    word.and_then(|w| w.parse().ok()).unwrap_or_else(|| usage("a number is missing"))
}

fn options() -> Options {
    let threads = thread::available_parallelism().map_or(1, |n| n.get() as u64);
    let mut options = Options {
        quick: false,
        samples: false,
        search: false,
        accuracy: false,
        function: None,
        inputs: None,
        seed: 1,
        threads,
    };
    let mut words = env::args().skip(1);
    while let Some(word) = words.next() {
        match word.as_str() {
            "--quick" => options.quick = true,
            "--samples" => options.samples = true,
            "--search" => options.search = true,
            "--accuracy" => options.accuracy = true,
            "--function" => options.function = words.next(),
            "--inputs" => options.inputs = Some(number(words.next())),
            "--seed" => options.seed = number(words.next()),
            "--threads" => options.threads = number(words.next()).max(1),
            _ => usage(&format!("`{word}` isn't known")),
        }
    }
    options
}

impl Options {
    fn wants(&self, name: &str) -> bool {
        self.function.as_ref().is_none_or(|function| function == name)
    }

    fn functions(&self) -> Vec<&'static Function> {
        FUNCTIONS.iter().filter(|f| self.wants(f.name)).collect()
    }

    /// Those of layer 3, the live board, the square root's, and those of packed prices.
    fn parts(&self) -> Vec<&'static Part> {
        PARTS.iter().filter(|p| self.wants(p.name)).collect()
    }

    fn run(&self, usual: u64) -> Run {
        Run { seed: self.seed, inputs: self.inputs.unwrap_or(usual), threads: self.threads }
    }
}

fn main() {
    let options = options();
    let Some(source) = rust_over_rules::SOURCE else {
        println!("no Rust source: comparison not run");
        exit(3);
    };
    if options.accuracy {
        exit(if accuracy::report() { 0 } else { 2 });
    }
    if options.samples {
        samples::write();
        exit(0);
    }
    println!("Rust source {source}, seed {}", options.seed);
    if options.search {
        exit(i32::from(!search::search(options.seed, options.inputs.unwrap_or(INPUTS))));
    }
    let (functions, parts) = (options.functions(), options.parts());
    if functions.is_empty() && parts.is_empty() {
        usage("there is no such function");
    }
    let (mut comparisons, mut differences) = (0, 0);
    let mut add = |tally: &Tally| {
        tally.lines.iter().for_each(|line| println!("{line}"));
        comparisons += tally.comparisons;
        differences += tally.differences;
    };
    for function in functions {
        // In a quick run a slow function has fewer inputs.
        add(&options.run(if options.quick { QUICK / function.cost } else { INPUTS }).function(function));
    }
    let mut missing = Vec::new();
    for part in parts {
        let tally = part.run(&options.run(if options.quick { part.quick } else { part.inputs }));
        add(&tally);
        missing.extend((part.report)(&tally).into_iter().map(|what| (part.name, what)));
    }
    missing.iter().for_each(|(name, what)| println!("no input of {name} met this: {what}"));
    println!("{comparisons} compared, {differences} differences");
    exit(i32::from(differences != 0 || !missing.is_empty()));
}
