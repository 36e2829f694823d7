//! A program written for the original library, with its first word changed and a `?` at each call.

use gintubalos::{OptionType, Refusal};

#[path = "school/after.rs"]
#[allow(dead_code)]
mod school;

#[test]
fn the_schools_program() {
    assert_eq!(school::lines().expect("volatilities"), include_str!("school/printed.txt"));
    let error = school::settle("1 0 1 1 1").expect_err("a forward of 0");
    assert_eq!(error.downcast_ref(), Some(&Refusal { number: 2, steps: 0 }));
}

/// The original's numbers, conversions and products.
#[test]
fn kinds() {
    use OptionType::{Call, Put};
    assert_eq!((Call as i8, Put as i8, -Call, -Put), (1, -1, Put, Call));
    assert_eq!((f64::from(Put), f32::from(Call), i128::from(Put), isize::from(Call)), (-1.0, 1.0, -1, 1));
    assert_eq!((OptionType::from(0i8), OptionType::from(-0.0f64), OptionType::from(-3i64)), (Call, Call, Put));
    // As the original has it: what is not from 0 on is a Put.
    assert_eq!(OptionType::from(f64::NAN), Put);
    assert_eq!((2.5 * Put, Put * 2.5f32, 7i16 * Call, Put * 7i32), (-2.5, -2.5, 7, -7));
    assert_eq!((0.0f64 * Put).to_bits(), (-0.0f64).to_bits());
    assert_eq!((Call.to_string(), Put.to_string()), ("Call".to_owned(), "Put".to_owned()));
}
