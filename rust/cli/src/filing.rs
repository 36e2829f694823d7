//! `file`, with `--repair`, and `show`: one record of a book.

use crate::{
    arguments::{Arguments, Market},
    book_file::{BookFile, RECORD},
    failure::Failure,
    output::{self, counted},
    records,
};
use gintubalos::{Record, RECORD_BYTES};
use std::{
    io::{self, Read, Seek, SeekFrom, Write},
    path::{Path, PathBuf},
};

/// Appends a record, with the book locked from the count of its records on.
pub fn file(mut arguments: Arguments, out: &mut impl Write) -> Result<(), Failure> {
    if arguments.flag("--repair") {
        return repair(arguments, out);
    }
    let path = arguments.path_to_add()?;
    let market = arguments.market()?;
    let limit = arguments.limit()?;
    let rules = arguments.end_with_rules()?;
    // The library's book is the new slot alone, so that the file need not be read. After a part of a record there is no
    // place for one: a used count with the part in it is above the whole slots, which the library refuses with 23.
    let mut slot = [0; RECORD_BYTES];
    let Market { price, forward, strike, expiry, kind } = market;
    let mut fill = |part: u64| {
        let (book, used) = if part == 0 { (&mut slot[..], 0) } else { (&mut [][..], 1) };
        gintubalos::file(price, forward, strike, expiry, kind, limit, rules, book, used).map_err(
            |refusal| match refusal.number {
                23 => Failure::Part { refusal, path: path.clone(), bytes: part },
                _ => Failure::Refusal(refusal),
            },
        )
    };
    let mut book = match BookFile::to_add(&path, false)? {
        Some(book) => book,
        // What is refused makes no file.
        None => {
            fill(0)?;
            BookFile::to_add(&path, true)?.expect("it is made where it is missing")
        }
    };
    let bytes = book.length()?;
    fill(bytes % RECORD)?;
    book.append(&slot)?;
    drop(book);
    let k = bytes / RECORD;
    write_filed(out, k, &Record::from(&slot)).and_then(|()| out.flush()).map_err(|error| {
        // Whoever does not know of the record would file it again.
        let change = format!("record {k} of {} is filed: do not file it again", path.display());
        Failure::Unshown { change, error }
    })
}

fn write_filed(out: &mut impl Write, k: u64, record: &Record) -> io::Result<()> {
    writeln!(out, "record      {k}")?;
    output::volatility(out, record.volatility(), record.sentinel())?;
    if let (Some(branch), Some(ending)) = (record.branch(), record.ending()) {
        output::ways(out, branch, ending, record.steps())?;
    }
    if let Some(sentinel) = record.sentinel() {
        // With standard error gone, the line above has said it.
        let _ = writeln!(io::stderr(), "gintubalos: warning: record {k} has no volatility: {sentinel}");
    }
    Ok(())
}

/// Takes a part of a record away from the book's end, and shows its bytes, so that nothing is lost.
fn repair(mut arguments: Arguments, out: &mut impl Write) -> Result<(), Failure> {
    let path = arguments.path_to_add()?;
    arguments.end()?;
    let mut book = BookFile::to_add(&path, false)?.ok_or_else(|| Failure::missing(&path))?;
    let part = book.take_part_away()?;
    let records = counted(book.length()? / RECORD, "whole record");
    if part.is_empty() {
        writeln!(out, "{} has {records} and no part at its end", path.display())?;
        return Ok(());
    }
    let digits: String = part.iter().map(|byte| format!("{byte:02X}")).collect();
    let bytes = counted(part.len() as u64, "byte");
    let change = format!("a part of {bytes} is taken away, which leaves {records}");
    writeln!(out, "{}: {change}\nits bytes   {digits}", path.display()).and_then(|()| out.flush()).map_err(|error| {
        // The bytes stand nowhere else any more.
        Failure::Unshown { change: format!("{}: {change}; its bytes: {digits}", path.display()), error }
    })
}

/// Record k's bytes, or as many as are there.
fn read(path: &Path, k: u64) -> Result<Vec<u8>, Failure> {
    let mut book = BookFile::to_read(path)?;
    let mut bytes = Vec::new();
    if k < book.length()?.div_ceil(RECORD) {
        book.seek(SeekFrom::Start(k * RECORD))
            .and_then(|_| book.take(RECORD).read_to_end(&mut bytes))
            .map_err(Failure::file(path))?;
    }
    Ok(bytes)
}

/// The same of standard input, of which all that comes before is read too.
fn read_input(k: u64) -> io::Result<Vec<u8>> {
    let mut input = records::input()?;
    io::copy(&mut Read::by_ref(&mut input).take(k.saturating_mul(RECORD)), &mut io::sink())?;
    let mut bytes = Vec::new();
    input.take(RECORD).read_to_end(&mut bytes)?;
    Ok(bytes)
}

/// A record as it is filed; nothing is solved.
pub fn show(mut arguments: Arguments, out: &mut impl Write) -> Result<(), Failure> {
    let path = arguments.path()?;
    let k = arguments.record_number()?;
    arguments.end()?;
    let name = PathBuf::from(records::name(&path));
    let bytes = if records::is_input(&path) { read_input(k).map_err(Failure::file(&name))? } else { read(&path, k)? };
    // A book of this record alone.
    let record = gintubalos::read(&bytes, 1, 0).map_err(|refusal| Failure::NoRecord { refusal, path: name, k })?;
    writeln!(out, "record      {k}, as it is filed")?;
    output::float(out, "price", record.price())?;
    output::float(out, "forward", record.forward())?;
    output::float(out, "strike", record.strike())?;
    output::float(out, "expiry", record.expiry())?;
    output::byte(out, "kind", record.bytes()[48], record.kind())?;
    writeln!(out, "limit       {}", record.limit())?;
    output::volatility(out, record.volatility(), record.sentinel())?;
    output::byte(out, "branch", record.bytes()[49], record.branch())?;
    output::byte(out, "ending", record.bytes()[50], record.ending())?;
    writeln!(out, "steps       {}", record.steps())?;
    let spare = &record.bytes()[51..];
    if spare.iter().any(|byte| *byte != 0) {
        let digits: String = spare.iter().map(|byte| format!("{byte:02X}")).collect();
        writeln!(out, "spare bytes {digits}, outside the layout")?;
    }
    Ok(())
}
