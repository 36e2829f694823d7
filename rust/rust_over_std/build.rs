//! Writes the Rust's source over std's functions.

fn main() {
    rust_source::write(rust_source::Over::Std);
}
