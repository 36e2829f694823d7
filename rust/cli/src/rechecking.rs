//! `recheck`: every record of some books solved again, on all cores, with the answers in the books' order; and `list`.

use crate::{
    arguments::Arguments,
    failure::{Failure, IO_ERROR},
    output,
    progress::{Progress, PAUSE},
    records::{self, Block, Records},
};
use gintubalos::{solve, Record, Refusal, RuleSet, RECORD_BYTES};
use std::{
    collections::BTreeMap,
    io::{self, Write},
    num::NonZero,
    sync::{
        atomic::{AtomicU64, Ordering},
        mpsc::{self, RecvTimeoutError, SyncSender},
        Mutex,
    },
    thread,
};

/// So many differing records are shown and named.
const MOST_SHOWN: u64 = 10;

/// So many threads work, whatever is asked for: each takes memory.
const MOST_JOBS: usize = 256;

/// A record that does not agree.
enum Finding {
    Differs([u8; RECORD_BYTES]),
    Refused(u8),
}

/// What a block of records holds.
struct Findings {
    first: u64,
    records: u64,
    others: Vec<(u64, Finding)>,
}

/// Solves a block's records again. Each is a book of its own; a last part is one without a whole slot, which gives 23.
fn check(block: &Block, rules: RuleSet, done: &AtomicU64) -> Findings {
    let mut findings = Findings { first: block.first, records: 0, others: Vec::new() };
    for (k, record) in block.records() {
        let finding = match gintubalos::recheck(record, 1, 0, rules) {
            Ok(true) => None,
            Ok(false) => Some(Finding::Differs(record.try_into().expect("what is solved again is a whole record"))),
            Err(refusal) => Some(Finding::Refused(refusal.number)),
        };
        findings.others.extend(finding.map(|finding| (k, finding)));
        findings.records += 1;
        done.fetch_add(1, Ordering::Relaxed);
    }
    findings
}

/// Takes block after block until there is none, or nobody listens any more.
fn work(records: &Mutex<Records>, rules: RuleSet, done: &AtomicU64, sender: SyncSender<Result<Findings, Failure>>) {
    loop {
        let block = records.lock().expect("no thread panics").block();
        let findings = match block {
            Ok(None) => return,
            Ok(Some(block)) => Ok(check(&block, rules, done)),
            Err(failure) => Err(failure),
        };
        let failed = findings.is_err();
        if sender.send(findings).is_err() || failed {
            return;
        }
    }
}

/// What a recheck of whole books found.
#[derive(Default)]
struct Summary {
    records: u64,
    agree: u64,
    differ: u64,
    /// The first records that differ.
    names: Vec<String>,
    /// By number: how many records, and the first of them.
    refusals: BTreeMap<u8, (u64, u64)>,
}

impl Summary {
    /// Counts a block, and shows what differs: the first records of a book, or all.
    fn count(&mut self, findings: Findings, options: &Options, out: &mut impl Write) -> io::Result<()> {
        self.records += findings.records;
        self.agree += findings.records - findings.others.len() as u64;
        for (k, finding) in findings.others {
            match finding {
                Finding::Differs(record) => {
                    if options.all || self.differ < MOST_SHOWN {
                        write_difference(out, k, &Record::from(&record), options.rules)?;
                    }
                    if self.differ < MOST_SHOWN {
                        self.names.push(k.to_string());
                    }
                    self.differ += 1;
                }
                Finding::Refused(number) => self.refusals.entry(number).or_insert((0, k)).0 += 1,
            }
        }
        Ok(())
    }

    fn refused(&self) -> u64 {
        self.refusals.values().map(|(count, _)| count).sum()
    }

    fn write(&self, out: &mut impl Write) -> io::Result<()> {
        writeln!(out, "records     {}", self.records)?;
        writeln!(out, "agree       {}", self.agree)?;
        write!(out, "differ      {}", self.differ)?;
        if self.differ > 0 {
            let more = if self.differ > MOST_SHOWN { ", .." } else { "" };
            write!(out, "  (records {}{more})", self.names.join(", "))?;
        }
        writeln!(out, "\nrefused     {}", self.refused())?;
        for (&number, (count, first)) in &self.refusals {
            let meaning = match number {
                // Of its two causes a file can have only this one.
                23 => "the file ends in a part under 64 bytes",
                _ => Refusal { number, steps: 0 }.meaning(),
            };
            writeln!(out, "  with {number:<2}   {count}  (the first is record {first}): {meaning}")?;
        }
        Ok(())
    }

    fn status(&self) -> u8 {
        match (self.differ, self.refused()) {
            (0, 0) => 0,
            (0, _) => 2,
            _ => 1,
        }
    }
}

/// How many floats one is from the other; none where one is no number.
fn floats_apart(a: f64, b: f64) -> Option<u64> {
    let place = |x: f64| match x.to_bits() as i64 {
        bits if bits < 0 => i64::MIN - bits,
        bits => bits,
    };
    (!a.is_nan() && !b.is_nan()).then(|| place(a).abs_diff(place(b)))
}

/// What a glance should tell: a drift in the last places, or another answer.
fn headline(filed: f64, solved: f64) -> String {
    match floats_apart(filed, solved) {
        _ if filed.to_bits() == solved.to_bits() => "the same volatility, another way to it".to_owned(),
        Some(0) => "zeros of unequal sign".to_owned(),
        Some(1) => "the volatility is 1 float apart".to_owned(),
        Some(apart) => format!("the volatility is {apart} floats apart"),
        None => "the filed volatility is no number".to_owned(),
    }
}

/// A record that differs: what is filed beside what is solved again.
fn write_difference(out: &mut impl Write, k: u64, record: &Record, rules: RuleSet) -> io::Result<()> {
    let (Some(kind), Some(branch), Some(ending)) = (record.kind(), record.branch(), record.ending()) else {
        unreachable!("a record outside the layout is refused");
    };
    let (price, forward, strike, expiry) = (record.price(), record.forward(), record.strike(), record.expiry());
    let solved = solve(price, forward, strike, expiry, kind, record.limit(), rules);
    let solved = solved.expect("what is refused does not differ");
    writeln!(out, "record {k} differs: {}", headline(record.volatility(), solved.volatility))?;
    let mut row = |name: &str, filed: String, solved: String| writeln!(out, "  {name:<10}  {filed:<26}  {solved}");
    row("", "filed".into(), "solved again".into())?;
    row("volatility", output::decimal(record.volatility()), output::decimal(solved.volatility))?;
    row("", output::bits(record.volatility()), output::bits(solved.volatility))?;
    row("steps", record.steps().to_string(), solved.steps.to_string())?;
    row("branch", format!("{}, {branch}", branch as u8), format!("{}, {}", solved.branch as u8, solved.branch))?;
    row("ending", format!("{}, {ending}", ending as u8), format!("{}, {}", solved.ending as u8, solved.ending))?;
    writeln!(out)
}

/// Of two books' statuses the one that counts: a file that can't be read, then a difference, then a refusal.
fn worse(a: u8, b: u8) -> u8 {
    [IO_ERROR, 1, 2].into_iter().find(|status| [a, b].contains(status)).unwrap_or(0)
}

/// The options of a recheck.
struct Options {
    all: bool,
    jobs: NonZero<usize>,
    rules: RuleSet,
}

fn recheck_records(
    records: Records,
    options: &Options,
    progress: &mut Progress,
    out: &mut impl Write,
) -> Result<Summary, Failure> {
    let records = Mutex::new(records);
    let done = AtomicU64::new(0);
    let mut summary = Summary::default();
    thread::scope(|scope| {
        let jobs = options.jobs.get().min(MOST_JOBS);
        let (sender, receiver) = mpsc::sync_channel(4 * jobs);
        for k in 0..jobs {
            let (records, done, sender) = (&records, &done, sender.clone());
            match thread::Builder::new().spawn_scoped(scope, move || work(records, options.rules, done, sender)) {
                Err(error) if k == 0 => return Err(Failure::Thread { error }),
                // Those that there are do the work.
                Err(_) => break,
                Ok(_) => {}
            }
        }
        drop(sender);
        // Blocks that came before one of lower records.
        let mut early = BTreeMap::new();
        loop {
            match receiver.recv_timeout(PAUSE) {
                Ok(findings) => {
                    let findings = findings?;
                    early.insert(findings.first, findings);
                    while let Some(findings) = early.remove(&summary.records) {
                        if !findings.others.is_empty() {
                            progress.clear();
                        }
                        summary.count(findings, options, out)?;
                    }
                }
                Err(RecvTimeoutError::Timeout) => {}
                Err(RecvTimeoutError::Disconnected) => return Ok(summary),
            }
            progress.at(done.load(Ordering::Relaxed));
        }
    })
}

pub fn recheck(mut arguments: Arguments, out: &mut impl Write) -> Result<u8, Failure> {
    let (all, jobs) = (arguments.flag("--all"), arguments.jobs()?);
    let paths = arguments.paths()?;
    let options = Options { all, jobs, rules: arguments.end_with_rules()? };
    let mut progress = Progress::new(paths.iter().map(|path| records::count(path)).sum());
    let mut status = 0;
    for path in &paths {
        if paths.len() > 1 {
            progress.clear();
            writeln!(out, "{}:", records::name(path))?;
        }
        match Records::open(path).and_then(|records| recheck_records(records, &options, &mut progress, out)) {
            Ok(summary) => {
                progress.clear();
                summary.write(out)?;
                progress.pass(summary.records);
                status = worse(status, summary.status());
            }
            Err(failure @ Failure::Output { .. }) => return Err(failure),
            // One book of several that can't be read does not keep the others from being rechecked.
            Err(failure) if paths.len() > 1 => {
                progress.clear();
                out.flush()?;
                let _ = writeln!(io::stderr(), "gintubalos: {failure}");
                status = worse(status, IO_ERROR);
            }
            Err(failure) => return Err(failure),
        }
    }
    Ok(status)
}

/// A book in memory, filed under the original library's rules; the status is a recheck's.
pub fn recheck_bytes(book: &'static [u8], out: &mut impl Write) -> Result<u8, Failure> {
    let options = Options { all: false, jobs: NonZero::<usize>::MIN, rules: RuleSet::Original };
    let summary = recheck_records(Records::of(book), &options, &mut Progress::new(0), out)?;
    summary.write(out)?;
    Ok(summary.status())
}

pub fn list(mut arguments: Arguments, out: &mut impl Write) -> Result<(), Failure> {
    let path = arguments.path()?;
    arguments.end()?;
    let mut records = Records::open(&path)?;
    while let Some(block) = records.block()? {
        for (k, record) in block.records() {
            out.write_all(gintubalos::line(k, record).as_bytes())?;
        }
    }
    Ok(())
}

#[cfg(test)]
mod tests {
    use super::floats_apart;

    #[test]
    fn apart() {
        assert_eq!(floats_apart(1.0, 1.0 + f64::EPSILON), Some(1));
        assert_eq!(floats_apart(-0.0, 0.0), Some(0));
        assert_eq!(floats_apart(f64::from_bits(1), -f64::from_bits(1)), Some(2));
        assert_eq!(floats_apart(f64::MAX, f64::INFINITY), Some(1));
        assert_eq!(floats_apart(f64::NEG_INFINITY, f64::INFINITY), Some(2 * 0x7FF0_0000_0000_0000));
        assert_eq!(floats_apart(f64::NAN, 0.0), None);
    }
}
