//! A price as the clearing feed has it: decimal digits and a sign in 8 bytes.

use crate::{bits, environment::in_default, Refusal};
use std::{error::Error, fmt, str::FromStr};

/// 15 decimal digits, two per byte, the most significant first, and in the last four bits the sign: hexadecimal C for plus,
/// D for minus. The unit is one ten-thousandth. It holds any 8 bytes; those that are no price are refused with 36 where they
/// are read: a digit above 9, another sign, or zero with D.
///
/// ```
/// use gintubalos::PackedPrice;
///
/// let packed: PackedPrice = "000000000125000C".parse()?;
/// assert_eq!(packed, PackedPrice([0, 0, 0, 0, 0x01, 0x25, 0x00, 0x0C]));
/// assert_eq!(f64::try_from(packed)?, 12.5);
///
/// // The nearest ten-thousandth. These two are halfway between two of them: the even one is taken.
/// let packed = [0.03125, 0.09375].map(PackedPrice::try_from);
/// assert_eq!(packed.map(|packed| packed.unwrap().to_string()), ["0.0312", "0.0938"]);
///
/// let refusal = PackedPrice::try_from(1e11).unwrap_err();
/// assert_eq!(refusal.to_string(), "refused with 37: the price is not finite, or after rounding needs more than 15 digits");
/// # Ok::<(), Box<dyn std::error::Error>>(())
/// ```
///
/// What is read and written again is the same 8 bytes. In text it is the price with all of its four places, or, where the 8
/// bytes are no price, their 16 hexadecimal digits, which `{:X}` always gives:
///
/// ```
/// use gintubalos::PackedPrice;
///
/// let [price, none] = [[0, 0, 0, 0, 0, 0, 0, 0x1D], [0xFF; 8]].map(PackedPrice::from);
/// assert_eq!(format!("{price} {price:X}"), "-0.0001 000000000000001D");
/// assert_eq!(format!("{none} {none:X}"), "FFFFFFFFFFFFFFFF FFFFFFFFFFFFFFFF");
/// ```
#[derive(Clone, Copy, Debug, PartialEq, Eq, Hash)]
pub struct PackedPrice(pub [u8; 8]);

impl From<[u8; 8]> for PackedPrice {
    fn from(bytes: [u8; 8]) -> PackedPrice {
        PackedPrice(bytes)
    }
}

impl From<PackedPrice> for [u8; 8] {
    fn from(packed: PackedPrice) -> [u8; 8] {
        packed.0
    }
}

/// Reads: the nearest float, ties to even. Refused with 36 where the 8 bytes are no price.
impl TryFrom<PackedPrice> for f64 {
    type Error = Refusal;

    #[inline]
    fn try_from(packed: PackedPrice) -> Result<f64, Refusal> {
        match in_default(|| bits::packed_read(&packed.0)) {
            (price, 0) => Ok(f64::from_bits(price)),
            (_, number) => Err(Refusal { number, steps: 0 }),
        }
    }
}

/// Writes: the nearest ten-thousandth, ties to even; what rounds to zero has C. Refused with 37 where the price is not
/// finite, or after rounding needs more than 15 digits.
impl TryFrom<f64> for PackedPrice {
    type Error = Refusal;

    #[inline]
    fn try_from(price: f64) -> Result<PackedPrice, Refusal> {
        let mut packed = [0; 8];
        match in_default(|| bits::packed_write(price.to_bits(), &mut packed)) {
            0 => Ok(PackedPrice(packed)),
            number => Err(Refusal { number, steps: 0 }),
        }
    }
}

/// Why a text is not the 16 hexadecimal digits of a [`PackedPrice`].
#[derive(Clone, Copy, Debug, PartialEq, Eq)]
pub enum ParsePackedPriceError {
    /// This character is no hexadecimal digit.
    Character(char),
    /// There are so many hexadecimal digits.
    Length(usize),
}

impl fmt::Display for ParsePackedPriceError {
    fn fmt(&self, f: &mut fmt::Formatter) -> fmt::Result {
        f.write_str("16 hexadecimal digits are wanted, ")?;
        match self {
            ParsePackedPriceError::Character(character) => write!(f, "and {character:?} is none"),
            ParsePackedPriceError::Length(length) => write!(f, "and not {length}"),
        }
    }
}

impl Error for ParsePackedPriceError {}

/// Of 16 hexadecimal digits in either case, and nothing else, also where they are no price.
///
/// ```
/// use gintubalos::PackedPrice;
///
/// let errors = ["12.5", "125000C"].map(|text| text.parse::<PackedPrice>().unwrap_err().to_string());
/// assert_eq!(
///     errors,
///     ["16 hexadecimal digits are wanted, and '.' is none", "16 hexadecimal digits are wanted, and not 7"]
/// );
/// ```
impl FromStr for PackedPrice {
    type Err = ParsePackedPriceError;

    fn from_str(text: &str) -> Result<PackedPrice, ParsePackedPriceError> {
        let mut word = 0u64;
        for character in text.chars() {
            let digit = character.to_digit(16).ok_or(ParsePackedPriceError::Character(character))?;
            // Of a text that is too long the first digits are pushed out; it has no price.
            word = word << 4 | u64::from(digit);
        }
        match text.len() {
            16 => Ok(PackedPrice(word.to_be_bytes())),
            length => Err(ParsePackedPriceError::Length(length)),
        }
    }
}

/// The 16 hexadecimal digits.
impl fmt::UpperHex for PackedPrice {
    fn fmt(&self, f: &mut fmt::Formatter) -> fmt::Result {
        f.pad(&format!("{:016X}", u64::from_be_bytes(self.0)))
    }
}

/// The price as it is, with four places; for 8 bytes that are no price the 16 hexadecimal digits.
impl fmt::Display for PackedPrice {
    fn fmt(&self, f: &mut fmt::Formatter) -> fmt::Result {
        let text = format!("{self:X}");
        if f64::try_from(*self).is_err() {
            return f.pad(&text);
        }
        // The digits are those of the text, so that nothing is rounded.
        let (digits, sign) = text.split_at(15);
        let (whole, places) = digits.split_at(11);
        let minus = if sign == "D" { "-" } else { "" };
        let whole = match whole.trim_start_matches('0') {
            "" => "0",
            whole => whole,
        };
        f.pad(&format!("{minus}{whole}.{places}"))
    }
}
