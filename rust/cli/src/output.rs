//! Numbers in decimal and in bits. The decimal is the shortest that reads back as the same float.

use gintubalos::{Branch, Ending, Sentinel};
use std::{
    fmt::Display,
    io::{self, Write},
};

pub fn decimal(x: f64) -> String {
    format!("{x:?}")
}

pub fn bits(x: f64) -> String {
    format!("{:016X}", x.to_bits())
}

/// A number of things.
pub fn counted(number: u64, thing: &str) -> String {
    format!("{number} {thing}{}", if number == 1 { "" } else { "s" })
}

/// A float in both forms, after its name.
pub fn float(out: &mut impl Write, name: &str, x: f64) -> io::Result<()> {
    writeln!(out, "{name:<10}  {:<24}  {}", decimal(x), bits(x))
}

/// A volatility, and in words where none is meant.
pub fn volatility(out: &mut impl Write, x: f64, sentinel: Option<Sentinel>) -> io::Result<()> {
    float(out, "volatility", x)?;
    sentinel.map_or(Ok(()), |sentinel| writeln!(out, "            {}", not_meant(sentinel)))
}

pub fn not_meant(sentinel: Sentinel) -> String {
    format!("no volatility is meant: {sentinel}")
}

/// A byte of a record with its meaning.
pub fn byte(out: &mut impl Write, name: &str, byte: u8, meaning: Option<impl Display>) -> io::Result<()> {
    match meaning {
        Some(meaning) => writeln!(out, "{name:<10}  {byte}, {meaning}"),
        None => writeln!(out, "{name:<10}  {byte}, outside the layout"),
    }
}

/// What stands beside a volatility: branch, ending and steps.
pub fn ways(out: &mut impl Write, branch: Branch, ending: Ending, steps: u32) -> io::Result<()> {
    let [branch, ending, steps] = ways_in_words(branch, ending, steps);
    writeln!(out, "branch      {branch}\nending      {ending}\nsteps       {steps}")
}

pub fn ways_in_words(branch: Branch, ending: Ending, steps: u32) -> [String; 3] {
    [format!("{}, {branch}", branch as u8), format!("{}, {ending}", ending as u8), steps.to_string()]
}

/// A text in lines of so many characters at most, broken between words; a longer word has a line of its own.
pub fn wrapped(text: &str, width: usize) -> Vec<String> {
    let mut lines: Vec<String> = Vec::new();
    for word in text.split(' ') {
        match lines.last_mut() {
            Some(line) if line.chars().count() + 1 + word.chars().count() <= width => *line += &format!(" {word}"),
            _ => lines.push(word.to_owned()),
        }
    }
    lines
}

/// A table with a rule under its heads, each column as wide as its widest cell.
pub fn table<const N: usize>(out: &mut impl Write, heads: &[[&str; N]], rows: &[[String; N]]) -> io::Result<()> {
    let heads: Vec<[String; N]> = heads.iter().map(|row| row.map(str::to_owned)).collect();
    let widths: [usize; N] =
        std::array::from_fn(|i| rows.iter().chain(&heads).map(|row| row[i].chars().count()).max().unwrap_or(0));
    let rule = widths.map(|width| "-".repeat(width));
    for row in heads.iter().chain([&rule]).chain(rows) {
        let cells: Vec<String> = row.iter().zip(widths).map(|(cell, width)| format!("{cell:<width$}")).collect();
        writeln!(out, "{}", cells.join("  ").trim_end())?;
    }
    Ok(())
}

#[cfg(test)]
mod tests {
    use super::wrapped;

    #[test]
    fn lines() {
        assert_eq!(wrapped("one two three", 7), ["one two", "three"]);
        assert_eq!(wrapped("one two three", 6), ["one", "two", "three"]);
        assert_eq!(wrapped("one two three", 80), ["one two three"]);
        assert_eq!(wrapped("three", 2), ["three"]);
    }
}
