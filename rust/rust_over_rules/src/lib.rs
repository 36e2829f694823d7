//! The Rust of the source folder, built over document 01's elementary functions. `elementary` has those, written from
//! document 01; `rust_source` reads the rest from the source folder; `prices` and `solver` have what document 01 says
//! instead of a panic. `book` is document 01's trail, book and listing, which the Rust doesn't have. `bid_ask` is document
//! 02's first request, `rule_set` its second.

#[cfg(feature = "steps")]
pub mod bid_ask;
#[cfg(feature = "steps")]
pub mod book;
pub mod elementary;
pub mod prices;
pub mod refusals;
#[cfg(feature = "steps")]
pub mod rule_set;
#[cfg(feature = "steps")]
pub mod solver;
#[cfg(feature = "steps")]
pub mod steps;

#[cfg(rust_source)]
mod num_traits;
#[cfg(rust_source)]
mod statrs;

include!(concat!(env!("OUT_DIR"), "/source.rs"));

pub use inputs::OptionType;

/// Says which source was read, if one was.
pub const SOURCE: Option<&str> = option_env!("GINTUBALOS_SOURCE_FINGERPRINT");

/// Whether the source has the calls in it that show its steps.
pub const WITH_STEPS: bool = cfg!(feature = "steps");

// erfcx_above_threshold has an assertion that document 01's build leaves out.
const _: () = assert!(!cfg!(debug_assertions));
