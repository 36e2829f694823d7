//! What the source folder takes from the registry crate num_traits.

pub trait ConstZero {
    const ZERO: Self;
}

macro_rules! zero {
    ($($t:ty)*) => { $(impl ConstZero for $t { const ZERO: $t = 0 as $t; })* };
}

zero!(f32 f64 i8 i16 i32 i64 i128 isize);

/// `is_zero` goes to document 01's rule, so the trait is a name only.
pub trait Zero {}
