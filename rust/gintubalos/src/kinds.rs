//! The kinds that document 01 has as bytes.

use std::{
    fmt,
    ops::{Mul, Neg},
};

/// The kind of an option, with the original library's numbers: the sign of what it pays.
#[derive(Clone, Copy, Debug, PartialEq, Eq)]
#[repr(i8)]
pub enum OptionType {
    /// The right to buy.
    Call = 1,
    /// The right to sell.
    Put = -1,
}

/// The end of the interval at which the cubic's second derivative is given.
#[derive(Clone, Copy, Debug, PartialEq, Eq)]
#[repr(u8)]
pub enum Side {
    /// At x_l.
    Left = 0,
    /// At x_r.
    Right = 1,
}

/// The branch of solve that gave the answer.
#[derive(Clone, Copy, Debug, PartialEq, Eq)]
#[repr(u8)]
pub enum Branch {
    /// Answered before a guess: the price is at or outside an end of what a volatility can give.
    BeforeAGuess = 0,
    /// The lower loop.
    LowerLoop = 1,
    /// The lower middle, by the general loop.
    LowerMiddle = 2,
    /// The upper middle, by the general loop.
    UpperMiddle = 3,
    /// The upper loop.
    UpperLoop = 4,
    /// The rest of the upper tail, by the general loop.
    UpperTail = 5,
}

/// What ended a solve.
#[derive(Clone, Copy, Debug, PartialEq, Eq)]
#[repr(u8)]
pub enum Ending {
    /// It had no loop.
    NoLoop = 0,
    /// The step test held: the last step was at most f64::EPSILON times s.
    StepTest = 1,
    /// As many steps as the limit were completed.
    Limit = 2,
}

/// A volatility of branch 0 that stands for none.
#[derive(Clone, Copy, Debug, PartialEq, Eq)]
pub enum Sentinel {
    /// −f64::MAX.
    BelowIntrinsic,
    /// f64::MAX, over √expiry where it is found after normalising: with a short expiry an infinity.
    AboveMaximum,
}

impl Sentinel {
    /// What an answer's volatility stands for, none where it is one. Branch 0 has 0 besides, for the intrinsic value itself.
    pub(crate) fn of(branch: Branch, volatility: f64) -> Option<Sentinel> {
        match branch {
            Branch::BeforeAGuess if volatility < 0.0 => Some(Sentinel::BelowIntrinsic),
            Branch::BeforeAGuess if volatility > 0.0 => Some(Sentinel::AboveMaximum),
            _ => None,
        }
    }
}

impl fmt::Display for Sentinel {
    fn fmt(&self, f: &mut fmt::Formatter) -> fmt::Result {
        f.pad(match self {
            Sentinel::BelowIntrinsic => "the price is below the intrinsic value",
            Sentinel::AboveMaximum => "the price is at or above the maximum",
        })
    }
}

/// Document 01's byte of each case, and its words.
macro_rules! bytes {
    ($($t:ident { $($case:ident = $byte:literal, $words:literal;)* })*) => { $(
        impl $t {
            /// The case that has this byte in document 01, none for a byte outside it.
            ///
            /// ```
            /// use gintubalos::{Branch, Ending, OptionType};
            ///
            /// assert_eq!(OptionType::from_byte(2), Some(OptionType::Put));
            /// assert_eq!(Branch::from_byte(4), Some(Branch::UpperLoop));
            /// assert_eq!(Ending::from_byte(3), None);
            /// ```
            pub const fn from_byte(byte: u8) -> Option<$t> {
                $(if byte == $t::$case.byte() {
                    return Some($t::$case);
                })*
                None
            }

            /// Document 01's byte of the case.
            ///
            /// ```
            /// use gintubalos::{Branch, OptionType};
            ///
            /// assert_eq!((OptionType::Put.byte(), Branch::UpperLoop.byte()), (2, 4));
            /// ```
            pub const fn byte(self) -> u8 {
                match self {
                    $($t::$case => $byte,)*
                }
            }
        }

        impl fmt::Display for $t {
            fn fmt(&self, f: &mut fmt::Formatter) -> fmt::Result {
                f.pad(match self {
                    $($t::$case => $words,)*
                })
            }
        }
    )* };
}

bytes! {
    OptionType {
        Call = 1, "Call";
        Put = 2, "Put";
    }
    Branch {
        BeforeAGuess = 0, "answered before a guess";
        LowerLoop = 1, "lower loop";
        LowerMiddle = 2, "lower middle";
        UpperMiddle = 3, "upper middle";
        UpperLoop = 4, "upper loop";
        UpperTail = 5, "rest of the upper tail";
    }
    Ending {
        NoLoop = 0, "no loop";
        StepTest = 1, "step test";
        Limit = 2, "limit";
    }
}

/// The other kind, as in the original library.
impl Neg for OptionType {
    type Output = OptionType;

    fn neg(self) -> OptionType {
        match self {
            OptionType::Call => OptionType::Put,
            OptionType::Put => OptionType::Call,
        }
    }
}

/// The original library's conversions and products: a Call is 1 and a Put −1, a number from 0 on is a Call's, and a product
/// with a Put changes the sign.
macro_rules! as_a_sign {
    ($($t:ty)*) => { $(
        impl From<OptionType> for $t {
            fn from(kind: OptionType) -> $t {
                <$t>::from(kind as i8)
            }
        }

        impl From<$t> for OptionType {
            fn from(number: $t) -> OptionType {
                if number >= <$t>::from(0i8) {
                    OptionType::Call
                } else {
                    OptionType::Put
                }
            }
        }

        impl Mul<OptionType> for $t {
            type Output = $t;

            fn mul(self, kind: OptionType) -> $t {
                match kind {
                    OptionType::Call => self,
                    OptionType::Put => -self,
                }
            }
        }

        impl Mul<$t> for OptionType {
            type Output = $t;

            fn mul(self, number: $t) -> $t {
                number * self
            }
        }
    )* };
}

as_a_sign!(f32 f64 i8 i16 i32 i64 i128 isize);
