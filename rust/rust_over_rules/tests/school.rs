//! The school's program as it is written for the original library, over the Rust's own source: its lines are those of the
//! changed program, which the crate gintubalos tries.

#![cfg(rust_source)]

extern crate rust_over_rules as blackscholes;

#[path = "../../gintubalos/tests/school/before.rs"]
#[allow(dead_code)]
mod school;

#[test]
fn the_schools_program() {
    let printed = include_str!("../../gintubalos/tests/school/printed.txt");
    assert_eq!(school::lines().expect("volatilities"), printed);
}
