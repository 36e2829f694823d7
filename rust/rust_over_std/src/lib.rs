//! The Rust of the source folder as it was published: std's exp, ln, sqrt, powf, mul_add and floor. `rust_source` reads
//! it. The registry crates that it asks for aren't at hand; `statrs` says what stands in for them.

#[cfg(rust_source)]
mod num_traits;
#[cfg(rust_source)]
mod statrs;

include!(concat!(env!("OUT_DIR"), "/source.rs"));

pub use inputs::OptionType;
