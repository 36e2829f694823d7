//! Writes the Rust's source over document 01's functions.

fn main() {
    let steps = std::env::var_os("CARGO_FEATURE_STEPS").is_some();
    rust_source::write(rust_source::Over::Rules { steps });
}
