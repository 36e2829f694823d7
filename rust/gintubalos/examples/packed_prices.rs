//! The clearing feed sends prices as 15 decimal digits and a sign, in 8 bytes. What becomes of a float on its way there?
//!
//! It is written as the nearest ten-thousandth, and of two that are equally near as the even one. For a class: say what is
//! written before each line is printed. Which floats are whole ten-thousandths, so that nothing is lost? Why does a price of
//! the feed that is read and written again have the same digits, though it is seldom a float?
//!
//! `cargo run --release --example packed_prices`

use gintubalos::{PackedPrice, Refusal};

fn main() -> Result<(), Refusal> {
    println!("from the feed:");
    for bytes in [[0, 0, 0, 0, 0x01, 0x23, 0x45, 0x6C], [0, 0, 0, 0, 0, 0, 0, 0x1D], [0, 0, 0, 0, 0, 0, 0, 0x0D]] {
        let packed = PackedPrice(bytes);
        match f64::try_from(packed) {
            Ok(price) => println!("{packed:X} is {packed}, as a float {price}, {:016X}", price.to_bits()),
            Err(refusal) => println!("{packed:X} is {refusal}"),
        }
    }
    println!("\nto the feed:");
    for price in [12.5, 12.34567, 0.03125, 0.09375, -0.00001, 1e11] {
        match PackedPrice::try_from(price) {
            Ok(packed) => println!("{price} is written {packed:X}, {packed}"),
            Err(refusal) => println!("{price} is {refusal}"),
        }
    }
    println!("\nthere and back:");
    let sum = 0.1 + 0.2;
    let packed = PackedPrice::try_from(sum)?;
    println!("0.1 + 0.2 is {sum}, written {packed}, and read again {}", f64::try_from(packed)?);
    Ok(())
}
