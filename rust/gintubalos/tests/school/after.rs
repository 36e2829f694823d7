//! A program of the school: the volatility of each settlement of a day, and the price that it gives again.

use gintubalos::{
    lets_be_rational::{black, implied_volatility_from_a_transformed_rational_guess},
    OptionType,
};
use std::error::Error;

/// Price, forward, strike, expiry, and 1 for a Call or -1 for a Put.
const DAY: &str = "\
10 100 95 1 1
5 100 95 1 -1
0.001 100 150 0.25 1
";

/// Kind, intrinsic value, volatility and price of a settlement.
pub fn settle(settlement: &str) -> Result<String, Box<dyn Error>> {
    let numbers: Vec<f64> = settlement.split(' ').map(str::parse).collect::<Result<_, _>>()?;
    let [price, forward, strike, expiry, sign] = numbers[..] else {
        return Err("a settlement has five numbers".into());
    };
    let kind = OptionType::from(sign);
    let intrinsic = (kind * (forward - strike)).max(0.0);
    let volatility = implied_volatility_from_a_transformed_rational_guess(price, forward, strike, expiry, kind)?;
    let again = black(forward, strike, volatility, expiry, kind)?;
    Ok(format!("{kind} {intrinsic} {volatility} {again}\n"))
}

pub fn lines() -> Result<String, Box<dyn Error>> {
    DAY.lines().map(settle).collect()
}

fn main() -> Result<(), Box<dyn Error>> {
    print!("{}", lines()?);
    Ok(())
}
