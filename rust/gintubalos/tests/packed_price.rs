//! Packed prices: every digit and sign, ties, the border and both zeros, and the bytes that a refusal leaves; answers beside
//! those that are worked out in whole numbers; and the text forms.

use gintubalos::{bits, *};

const NAN_BITS: u64 = 0x7FF8_0000_0000_0000;

/// The most ten-thousandths that 15 digits hold.
const MOST: u64 = 999_999_999_999_999;

/// The largest float that is written, and the next one.
const LARGEST: f64 = f64::from_bits(0x4237_4876_E7FF_FFFC);
const TOO_LARGE: f64 = f64::from_bits(0x4237_4876_E7FF_FFFD);

const LEAST: f64 = f64::from_bits(1);

/// NaNs: quiet and signalling, of either sign.
const NANS: [u64; 4] = [NAN_BITS, 0xFFF8_0000_0000_0001, 0x7FF0_0000_0000_0001, 0xFFFF_FFFF_FFFF_FFFF];

fn packed(text: &str) -> PackedPrice {
    text.parse().expect("16 hexadecimal digits")
}

/// The 8 bytes of so many ten-thousandths, digit by digit.
fn bytes_of(units: u64, minus: bool) -> [u8; 8] {
    let mut digits = [if minus { 13 } else { 12 }; 16];
    for (place, digit) in digits[..15].iter_mut().rev().enumerate() {
        *digit = (units / 10u64.pow(place as u32) % 10) as u8;
    }
    std::array::from_fn(|i| 16 * digits[2 * i] + digits[2 * i + 1])
}

/// By the request's words: the ten-thousandths and whether they are below zero, none for bytes that are no price.
fn units_of(bytes: [u8; 8]) -> Option<(u64, bool)> {
    let digits: Vec<u8> = bytes.iter().flat_map(|byte| [byte / 16, byte % 16]).collect();
    if digits[..15].iter().any(|digit| *digit > 9) {
        return None;
    }
    let units = digits[..15].iter().fold(0, |units, digit| 10 * units + u64::from(*digit));
    match digits[15] {
        12 => Some((units, false)),
        13 if units > 0 => Some((units, true)),
        _ => None,
    }
}

/// A division that is rounded once, ties to even.
fn nearest(dividend: u128, divisor: u128) -> u128 {
    let (whole, twice) = (dividend / divisor, 2 * (dividend % divisor));
    whole + u128::from(twice > divisor || (twice == divisor && whole % 2 == 1))
}

/// The bits of the float nearest to so many ten-thousandths: 53 binary digits of the fraction, in whole numbers.
fn read_in_whole_numbers(units: u64, minus: bool) -> u64 {
    let sign = u64::from(minus) << 63;
    if units == 0 {
        return sign;
    }
    // The number is below 2^37: some of its 53 digits stand behind the point.
    let places = (0..).find(|places| u128::from(units) << places >= 10_000 << 52).expect("the number is above zero");
    let digits = nearest(u128::from(units) << places, 10_000);
    // Where they are rounded up to 2^53 the sum has the next exponent.
    sign + ((1023 + 52 - places) << 52) + (digits - (1 << 52)) as u64
}

/// The 8 bytes of the ten-thousandth nearest to a float, in whole numbers; none where they are refused.
fn write_in_whole_numbers(price: f64) -> Option<[u8; 8]> {
    let (word, minus) = (price.abs().to_bits(), price.is_sign_negative());
    let (field, fraction) = (word >> 52, word % (1 << 52));
    // As a whole number, the price is `whole` units of 2^`exponent`.
    let (whole, exponent) = match field {
        0x7FF => return None,
        0 => (fraction, -1074),
        _ => (fraction | 1 << 52, field as i32 - 1075),
    };
    let product = u128::from(whole) * 10_000;
    let units = match exponent {
        // At least 2^53 x 10^4.
        1.. => return None,
        // Less than 2^67 / 2^100.
        ..-100 => 0,
        _ => nearest(product, 1 << -exponent),
    };
    let units = u64::try_from(units).ok().filter(|units| *units <= MOST)?;
    Some(bytes_of(units, minus && units > 0))
}

/// Bytes that are read as this float, which is written as these bytes.
fn reads(text: &str, price: f64) {
    let bytes = packed(text).0;
    assert_eq!(bits::packed_read(&bytes), (price.to_bits(), 0), "{text}");
    assert_eq!(f64::try_from(PackedPrice(bytes)).map(f64::to_bits), Ok(price.to_bits()), "{text}");
    writes(price, text);
}

/// Bytes that are no price.
fn no_price(bytes: [u8; 8]) {
    let packed = PackedPrice(bytes);
    assert_eq!(bits::packed_read(&bytes), (NAN_BITS, 36), "{packed:X}");
    assert_eq!(f64::try_from(packed), Err(Refusal { number: 36, steps: 0 }), "{packed:X}");
}

/// A float that is written as these bytes, over any others.
fn writes(price: f64, text: &str) {
    let bytes = packed(text).0;
    for before in [0, 0xFF, 0xA5] {
        let mut after = [before; 8];
        assert_eq!(bits::packed_write(price.to_bits(), &mut after), 0, "{price:e}");
        assert_eq!(PackedPrice(after), PackedPrice(bytes), "{price:e}");
    }
    assert_eq!(PackedPrice::try_from(price), Ok(PackedPrice(bytes)), "{price:e}");
}

/// A float that is refused, and not a byte is another one.
fn not_written(price: f64) {
    for before in [0, 0xFF, 0xA5] {
        let mut after = [before; 8];
        assert_eq!(bits::packed_write(price.to_bits(), &mut after), 37, "{price:e}");
        assert_eq!(after, [before; 8], "{price:e}");
    }
    assert_eq!(PackedPrice::try_from(price), Err(Refusal { number: 37, steps: 0 }), "{price:e}");
}

#[test]
fn values() {
    reads("000000000000000C", 0.0);
    for (text, price) in [
        ("000000000000001", 0.0001),
        ("000000000123456", 12.3456),
        ("000000000125000", 12.5),
        ("000000000010000", 1.0),
        ("000000000000625", 0.0625),
        ("000000000009999", 0.9999),
        ("123456789012345", 12_345_678_901.234_5),
        ("987654321098765", 98_765_432_109.876_5),
        ("100000000000000", 1e10),
        ("900719925474099", 90_071_992_547.409_9),
        ("999999999999999", 99_999_999_999.999_9),
    ] {
        reads(&format!("{text}C"), price);
        reads(&format!("{text}D"), -price);
    }
}

/// Each of the 15 places by itself, with each digit, and in all places the same one.
#[test]
fn every_place() {
    for digit in 0..10u64 {
        for place in 0..15 {
            let units = digit * 10u64.pow(place);
            reads(&format!("{units:015}C"), units as f64 / 10_000.0);
        }
        let units = digit * 111_111_111_111_111;
        reads(&format!("{units:015}C"), units as f64 / 10_000.0);
    }
}

/// A digit above 9 in each place, beside zeros, nines and others; every sign that is none; zero with D.
#[test]
fn no_prices() {
    for text in ["000000000000000C", "000000000123456C", "123456789012345D", "999999999999999D"] {
        let word = u64::from_be_bytes(packed(text).0);
        for place in 0..16 {
            let shift = 60 - 4 * place;
            for digit in 0..16 {
                let bytes = (word & !(15 << shift) | digit << shift).to_be_bytes();
                let accepted = if place < 15 { digit <= 9 } else { digit == 12 || digit == 13 };
                if !accepted {
                    no_price(bytes);
                    continue;
                }
                match units_of(bytes) {
                    Some((units, minus)) => reads(&format!("{:X}", PackedPrice(bytes)), signed(units, minus)),
                    None => no_price(bytes),
                }
            }
        }
    }
    for text in ["000000000000000D", "0000000000000000", "000000000000000F", "FFFFFFFFFFFFFFFF", "AAAAAAAAAAAAAAAC"] {
        no_price(packed(text).0);
    }
}

/// The machine's own quotient, which is rounded once.
fn signed(units: u64, minus: bool) -> f64 {
    let price = units as f64 / 10_000.0;
    if minus {
        -price
    } else {
        price
    }
}

/// Every value of each byte, whatever stands in the others.
#[test]
fn every_byte() {
    for around in [packed("000000000000000C"), packed("123456789012345D"), PackedPrice([0xA5; 8])] {
        for place in 0..8 {
            for byte in 0..=255 {
                let mut bytes = around.0;
                bytes[place] = byte;
                check_read(bytes);
            }
        }
    }
}

/// Floats that are exactly between two ten-thousandths, and their neighbours.
#[test]
fn ties() {
    for (halfway, even, above) in [
        (0.03125, 312, 313),
        (0.09375, 938, 938),
        (0.15625, 1562, 1563),
        (0.21875, 2188, 2188),
        (12.53125, 125_312, 125_313),
        (12.59375, 125_938, 125_938),
        (1_234_567.031_25, 12_345_670_312, 12_345_670_313),
        (99_999_999_999.468_75, 999_999_999_994_688, 999_999_999_994_688),
        (99_999_999_999.906_25, 999_999_999_999_062, 999_999_999_999_063),
    ] {
        for sign in [1.0, -1.0] {
            let text = |units: u64| PackedPrice(bytes_of(units, sign < 0.0)).to_string();
            let written = |price: f64| PackedPrice::try_from(sign * price).expect("in 15 digits").to_string();
            assert_eq!(written(halfway), text(even), "{halfway}");
            let below = above - 1;
            // Where the floats are far apart, the neighbours are nearer to other ten-thousandths.
            if halfway < 1e9 {
                assert_eq!(
                    [halfway.next_down(), halfway.next_up()].map(written),
                    [below, above].map(text),
                    "{halfway}"
                );
            }
        }
    }
    // Halves of a ten-thousandth that are no floats: the nearest float decides, and no tie.
    for (price, text) in [
        (0.00005, "000000000000001C"),
        (0.00015, "000000000000001C"),
        (0.00025, "000000000000003C"),
        (0.00035, "000000000000003C"),
        (1.00005, "000000000010001C"),
        (2.00025, "000000000020002C"),
    ] {
        assert_eq!(Some(packed(text).0), write_in_whole_numbers(price), "{price}");
        writes(price, text);
    }
}

/// What rounds to zero has C, with either sign; what rounds to one unit keeps its own.
#[test]
fn zeros() {
    for price in
        [0.0, LEAST, f64::from_bits(0x000F_FFFF_FFFF_FFFF), f64::MIN_POSITIVE, 1e-300, 1e-10, 0.00001, 0.0000499]
    {
        for price in [price, -price] {
            writes(price, "000000000000000C");
        }
    }
    // The two floats beside half a ten-thousandth, which is none.
    let half = 0.00005f64;
    let (below, above) = (half.next_down(), half);
    writes(below, "000000000000000C");
    writes(-below, "000000000000000C");
    writes(above, "000000000000001C");
    writes(-above, "000000000000001D");
}

#[test]
fn powers_of_two() {
    for exponent in 0..0x7FF {
        for price in [f64::from_bits(exponent << 52), -f64::from_bits(exponent << 52)] {
            check_write(price);
        }
    }
    for place in 0..52 {
        check_write(f64::from_bits(1 << place));
    }
    for (price, text) in [
        (0.5, "000000000005000C"),
        (0.0625, "000000000000625C"),
        (2f64.powi(-13), "000000000000001C"),
        (2f64.powi(-14), "000000000000001C"),
        (2f64.powi(-15), "000000000000000C"),
        (2f64.powi(36), "687194767360000C"),
    ] {
        writes(price, text);
    }
    not_written(2f64.powi(37));
}

#[test]
fn border() {
    for (price, text) in [
        (99_999_999_999.999_9, "999999999999999"),
        (LARGEST, "999999999999999"),
        (LARGEST.next_down(), "999999999999999"),
        (99_999_999_999.999_8, "999999999999998"),
        (99_999_999_999.0, "999999999990000"),
    ] {
        writes(price, &format!("{text}C"));
        writes(-price, &format!("{text}D"));
    }
    assert_eq!(LARGEST, 99_999_999_999.999_94);
    assert_eq!(LARGEST.next_up(), TOO_LARGE);
    for price in [TOO_LARGE, TOO_LARGE.next_up(), 1e11, 1e11 + 1.0, 1e12, 1e15, 1e16, 1e19, 1e20, 1e300, f64::MAX] {
        not_written(price);
        not_written(-price);
    }
    for price in [f64::INFINITY, f64::NEG_INFINITY].into_iter().chain(NANS.map(f64::from_bits)) {
        not_written(price);
    }
    // Whatever is in the bytes: no price, another price, and each byte another one.
    for before in [[1, 2, 3, 4, 5, 6, 7, 8], [0x99; 8], packed("123456789012345D").0] {
        for price in [TOO_LARGE, -TOO_LARGE, f64::NEG_INFINITY, f64::NAN] {
            let mut after = before;
            assert_eq!((bits::packed_write(price.to_bits(), &mut after), after), (37, before), "{price:e}");
        }
    }
}

#[test]
fn words_of_refusals() {
    assert_eq!(
        f64::try_from(PackedPrice([0; 8])).unwrap_err().to_string(),
        "refused with 36: the packed price has a digit above 9, a sign other than C or D, or zero with D"
    );
    assert_eq!(
        PackedPrice::try_from(f64::NAN).unwrap_err().to_string(),
        "refused with 37: the price is not finite, or after rounding needs more than 15 digits"
    );
    assert!([36, 37].iter().all(|number| Refusal::NUMBERS.contains(number)));
}

/// Random words.
fn words() -> impl FnMut() -> u64 {
    let mut word = 5u64;
    move || {
        word = word.wrapping_mul(6_364_136_223_846_793_005).wrapping_add(1_442_695_040_888_963_407);
        word ^ word >> 29
    }
}

/// Reads as the whole numbers say, and what is accepted comes back.
fn check_read(bytes: [u8; 8]) {
    let Some((units, minus)) = units_of(bytes) else {
        return no_price(bytes);
    };
    let expected = read_in_whole_numbers(units, minus);
    assert_eq!(expected, signed(units, minus).to_bits());
    let packed = PackedPrice(bytes);
    assert_eq!(bits::packed_read(&bytes), (expected, 0), "{packed:X}");
    assert_eq!(PackedPrice::try_from(f64::from_bits(expected)), Ok(packed), "{packed:X}");
}

/// Writes as the whole numbers say; what is refused leaves the bytes.
fn check_write(price: f64) {
    let before = [0xA5; 8];
    let (number, expected) = write_in_whole_numbers(price).map_or((37, before), |bytes| (0, bytes));
    let mut bytes = before;
    assert_eq!((bits::packed_write(price.to_bits(), &mut bytes), bytes), (number, expected), "{price:e}");
}

/// Prices of any length and sign.
#[test]
fn there_and_back() {
    let mut next = words();
    for i in 0..300_000 {
        let units = (next() >> 14) % (MOST + 1) / 10u64.pow(i % 15);
        check_read(bytes_of(units, next() >> 63 == 1));
    }
    for units in (0..30_000).chain(MOST - 30_000..=MOST) {
        check_read(bytes_of(units, false));
        check_read(bytes_of(units, true));
    }
}

/// Any bits; exponents near those that are written; and floats beside a middle of two ten-thousandths, where a product that
/// is rounded is that middle.
#[test]
fn floats() {
    let mut next = words();
    for _ in 0..100_000 {
        check_write(f64::from_bits(next()));
        let exponent = 1023 - 20 + (next() >> 20) % 60;
        check_write(f64::from_bits(next() >> 63 << 63 | exponent << 52 | next() >> 12));
    }
    for i in 0..100_000 {
        let units = (next() >> 14) % MOST / 10u64.pow(i % 15);
        let middle = (units as f64 + 0.5) / 10_000.0;
        for price in [middle.next_down(), middle, middle.next_up()] {
            check_write(price);
            check_write(-price);
        }
    }
    // Up to the border, and past it.
    let mut price = LARGEST;
    for _ in 0..1000 {
        check_write(price);
        check_write(2.0 * LARGEST - price);
        price = price.next_down();
    }
}

#[test]
fn decimals() {
    for (text, decimal) in [
        ("000000000000000C", "0.0000"),
        ("000000000000001C", "0.0001"),
        ("000000000000001D", "-0.0001"),
        ("000000000123456C", "12.3456"),
        ("000000000010000D", "-1.0000"),
        ("000000000009999C", "0.9999"),
        ("000000001000000C", "100.0000"),
        ("012345678901234D", "-1234567890.1234"),
        ("999999999999999C", "99999999999.9999"),
        ("999999999999999D", "-99999999999.9999"),
        // No prices.
        ("000000000000000D", "000000000000000D"),
        ("00000000000000AC", "00000000000000AC"),
        ("1234567890123456", "1234567890123456"),
        ("FFFFFFFFFFFFFFFF", "FFFFFFFFFFFFFFFF"),
    ] {
        assert_eq!((packed(text).to_string(), format!("{:X}", packed(text))), (decimal.to_owned(), text.to_owned()));
    }
    let price = packed("000000000125000D");
    assert_eq!(format!("{price:>10}|{price:<10}|{price:<18X}|"), "  -12.5000|-12.5000  |000000000125000D  |");
    // All its digits, whatever they are.
    let mut next = words();
    for _ in 0..1000 {
        let (units, minus) = ((next() >> 14) % MOST + 1, next() >> 63 == 1);
        let decimal = format!("{}{}.{:04}", if minus { "-" } else { "" }, units / 10_000, units % 10_000);
        assert_eq!(PackedPrice(bytes_of(units, minus)).to_string(), decimal);
    }
}

#[test]
fn hexadecimal_digits() {
    let bytes = [0x01, 0x23, 0x45, 0x67, 0x89, 0xAB, 0xCD, 0xEF];
    for text in ["0123456789ABCDEF", "0123456789abcdef", "0123456789abCDEf"] {
        assert_eq!(text.parse(), Ok(PackedPrice(bytes)));
    }
    for (text, error, words) in [
        ("", ParsePackedPriceError::Length(0), "and not 0"),
        ("C", ParsePackedPriceError::Length(1), "and not 1"),
        ("00000000000000C", ParsePackedPriceError::Length(15), "and not 15"),
        ("0000000000000000C", ParsePackedPriceError::Length(17), "and not 17"),
        ("00000000000000000000000000000000000C", ParsePackedPriceError::Length(36), "and not 36"),
        ("0x0000000000000C", ParsePackedPriceError::Character('x'), "and 'x' is none"),
        ("+00000000000000C", ParsePackedPriceError::Character('+'), "and '+' is none"),
        ("-00000000000000C", ParsePackedPriceError::Character('-'), "and '-' is none"),
        (" 00000000000000C", ParsePackedPriceError::Character(' '), "and ' ' is none"),
        ("000000000000000G", ParsePackedPriceError::Character('G'), "and 'G' is none"),
        ("00000000000000\u{FF10}C", ParsePackedPriceError::Character('\u{FF10}'), "and '\u{FF10}' is none"),
        ("12.5", ParsePackedPriceError::Character('.'), "and '.' is none"),
    ] {
        assert_eq!(text.parse::<PackedPrice>(), Err(error), "{text}");
        assert_eq!(error.to_string(), format!("16 hexadecimal digits are wanted, {words}"));
    }
}

#[test]
fn bytes() {
    let bytes = packed("000000000123456C").0;
    assert_eq!(bytes, [0, 0, 0, 0, 0x01, 0x23, 0x45, 0x6C]);
    assert_eq!(<[u8; 8]>::from(PackedPrice::from(bytes)), bytes);
    assert_ne!(PackedPrice(bytes), packed("000000000123456D"));
}
