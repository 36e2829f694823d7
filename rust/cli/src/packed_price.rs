//! `packed`: prices of the clearing feed as floats, and floats as prices of the feed, a line each. What is refused is told
//! in its line, and the others have their answers all the same.

use crate::{arguments::Arguments, failure::Failure, output};
use gintubalos::PackedPrice;
use std::io::{self, Write};

/// The status: 0, or the number that refuses a price. Those that are read have one, those that are written another.
pub fn packed(mut arguments: Arguments, out: &mut impl Write) -> Result<u8, Failure> {
    match arguments.call().as_deref() {
        Some("read") => {
            let prices = arguments.packed_prices()?;
            arguments.end()?;
            Ok(read(&prices, out)?)
        }
        Some("write") => {
            let prices = arguments.floats("PRICE")?;
            arguments.end()?;
            Ok(write(&prices, out)?)
        }
        Some(other) => Err(Failure::usage(format!("there is no packed {other}, but packed read and packed write"))),
        None => Err(Failure::usage("packed wants read or write")),
    }
}

/// The digits, the price that they are, and the nearest float.
fn read(prices: &[PackedPrice], out: &mut impl Write) -> io::Result<u8> {
    let mut status = 0;
    for packed in prices {
        match f64::try_from(*packed) {
            Ok(price) => {
                let [decimal, bits] = [output::decimal(price), output::bits(price)];
                writeln!(out, "{packed:X}  {packed:<17}  {decimal:<24}  {bits}")?;
            }
            Err(refusal) => {
                status = refusal.number;
                writeln!(out, "{packed:X}  {refusal}")?;
            }
        }
    }
    Ok(status)
}

/// The float, the digits that it is written as, and the price that they are, marked where it is another.
fn write(prices: &[f64], out: &mut impl Write) -> io::Result<u8> {
    let mut status = 0;
    for price in prices.iter().copied() {
        let decimal = output::decimal(price);
        match PackedPrice::try_from(price) {
            Ok(packed) => {
                let line = format!("{decimal:<24}  {packed:X}  {packed:<17}  {}", mark(price, packed));
                writeln!(out, "{}", line.trim_end())?;
            }
            Err(refusal) => {
                status = refusal.number;
                writeln!(out, "{decimal:<24}  {refusal}")?;
            }
        }
    }
    Ok(status)
}

/// A mark where the price that is written is read as another float.
fn mark(price: f64, packed: PackedPrice) -> &'static str {
    if f64::try_from(packed) == Ok(price) {
        ""
    } else {
        "rounded"
    }
}
