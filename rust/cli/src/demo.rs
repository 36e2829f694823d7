//! `demo`: the bundled book rechecked, and an example solved.

use crate::{failure::Failure, rechecking, solving};
use gintubalos::{OptionType, RuleSet};
use std::io::Write;

/// Records of branches 0 to 4 with both endings, filed by this program.
const BOOK: &[u8] = include_bytes!("demo.book");

const EXAMPLE: &str = "
Question six: a Call on a future at 100, struck at 95, one year to go, costs 10.
Which volatility does that price imply?

  gintubalos solve 10 100 95 1 call --steps
";

/// The status is recheck's.
pub fn demo(out: &mut impl Write) -> Result<u8, Failure> {
    writeln!(out, "A book of {} settlements, each solved again:\n", BOOK.len() / gintubalos::RECORD_BYTES)?;
    let status = rechecking::recheck_bytes(BOOK, out)?;
    writeln!(out, "{EXAMPLE}")?;
    solving::write_solution(
        &crate::arguments::Market { price: 10.0, forward: 100.0, strike: 95.0, expiry: 1.0, kind: OptionType::Call },
        2,
        RuleSet::Original,
        Some(solving::Table { bits: false }),
        out,
    )?;
    Ok(status)
}
