//! What a call answers where it has no value.

use std::{error::Error, fmt};

/// A refusal: the number that documents 01 and 02 give its cause, and the steps that were completed before it.
///
/// ```
/// use gintubalos::{black, OptionType, Refusal};
///
/// let refusal = black(100.0, 95.0, 0.2, 0.0, OptionType::Call).unwrap_err();
/// assert_eq!(refusal, Refusal { number: 4, steps: 0 });
/// assert_eq!(refusal.to_string(), "refused with 4: the expiry is not a positive normal finite number");
/// ```
#[derive(Clone, Copy, Debug, PartialEq, Eq)]
pub struct Refusal {
    /// 1 to 8 from the input, 21 to 24 from the state, 31 from a low and a high price together, 32 from a rule set's
    /// number, 33 to 35 from a quote that would arrive on a board, 36 from a packed price that is read, 37 from a price that
    /// would be written as one.
    pub number: u8,
    /// 0 unless 7 comes inside a loop: the records of so many steps then stand in the trail.
    pub steps: u32,
}

impl Refusal {
    /// Every number that a call refuses with, from documents 01 and 02.
    pub const NUMBERS: [u8; 19] = [1, 2, 3, 4, 5, 6, 7, 8, 21, 22, 23, 24, 31, 32, 33, 34, 35, 36, 37];

    /// The number's meaning in words.
    ///
    /// ```
    /// let refusal = gintubalos::Refusal { number: 22, steps: 0 };
    /// assert_eq!(refusal.meaning(), "the book has no free slot");
    /// ```
    pub const fn meaning(self) -> &'static str {
        match self.number {
            1 => "the price is not finite",
            2 => "the forward is not a positive normal finite number",
            3 => "the strike is not a positive normal finite number",
            4 => "the expiry is not a positive normal finite number",
            5 => "sigma is not finite",
            6 => "the cubic got an infinite x, x_l or x_r",
            7 => "the asymptotic expansion was asked for outside its region",
            8 => "the expansion for a small t was asked for at t >= 2 x 0.10566243270259357",
            21 => "the trail is shorter than 48 x max(limit, 0) bytes",
            22 => "the book has no free slot",
            23 => "the record number is not below the used count, or that count is above the book's whole slots",
            24 => "the record's kind, branch, ending or spare bytes are outside the layout",
            31 => "the low price is above the high price",
            32 => "the rule set is unknown",
            33 => "the volatility is NaN",
            34 => "the series is live already",
            35 => "256 quotes are live",
            36 => "the packed price has a digit above 9, a sign other than C or D, or zero with D",
            37 => "the price is not finite, or after rounding needs more than 15 digits",
            _ => "a number that document 01 does not have",
        }
    }
}

impl fmt::Display for Refusal {
    fn fmt(&self, f: &mut fmt::Formatter) -> fmt::Result {
        write!(f, "refused with {}: {}", self.number, self.meaning())?;
        match self.steps {
            0 => Ok(()),
            1 => write!(f, " (after 1 completed step)"),
            steps => write!(f, " (after {steps} completed steps)"),
        }
    }
}

impl Error for Refusal {}
