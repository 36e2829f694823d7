//! Where the Rust panics, document 01 has a number. `rust_source` puts `rule_expect` with that number in place of `expect`;
//! it unwinds as the panic does, without the message, up to `catch_refusal`.

use std::panic::{catch_unwind, resume_unwind, AssertUnwindSafe};

/// A value, or document 01's number where there is none.
pub type Answer = Result<f64, u8>;

/// What unwinds.
struct Refusal(u8);

/// The name that `rust_source` puts in place of `expect`.
pub trait Expect {
    type Value;
    fn rule_expect(self, number: u8) -> Self::Value;
}

impl<T> Expect for Option<T> {
    type Value = T;
    fn rule_expect(self, number: u8) -> T {
        self.unwrap_or_else(|| resume_unwind(Box::new(Refusal(number))))
    }
}

impl<T, E> Expect for Result<T, E> {
    type Value = T;
    fn rule_expect(self, number: u8) -> T {
        self.ok().rule_expect(number)
    }
}

/// The value, or the number with which the Rust gives up. Any other panic goes on.
pub fn catch_refusal(value: impl FnOnce() -> f64) -> Answer {
    catch_unwind(AssertUnwindSafe(value)).map_err(|what| match what.downcast::<Refusal>() {
        Ok(refusal) => refusal.0,
        Err(other) => resume_unwind(other),
    })
}
