//! The functions on the bits of floats and on bytes, as the archive has them, in the caller's floating-point environment,
//! which has to be the default one: slices as pointer and length, a board and a packed price as their bytes, what an answer
//! has besides its value packed into one word. A value is NaN where it is refused. A rule set is 0 or 1, and refused with 32
//! where it is neither; a kind is 1 or 2, and then refused with 24 where it is neither.
//!
//! ```
//! use gintubalos::bits;
//!
//! assert_eq!(bits::black(0, 0, 0, 0, 3), (0x7FF8_0000_0000_0000, 24));
//! ```

use crate::BOARD_BYTES;

mod archive {
    use crate::BOARD_BYTES;
    extern "C" {
        pub fn gintubalos_solve_with_trail(
            price: u64,
            forward: u64,
            strike: u64,
            expiry: u64,
            option_type: u8,
            max_iteration: i32,
            rule_set: u32,
            trail: *mut u8,
            trail_len: usize,
            outcome: &mut u64,
        ) -> u64;
        pub fn gintubalos_implied_volatility_from_a_transformed_rational_guess(
            price: u64,
            forward: u64,
            strike: u64,
            expiry: u64,
            option_type: u8,
            rule_set: u32,
            outcome: &mut u64,
        ) -> u64;
        pub fn gintubalos_solve_without_trail(
            price: u64,
            forward: u64,
            strike: u64,
            expiry: u64,
            option_type: u8,
            max_iteration: i32,
            rule_set: u32,
            outcome: &mut u64,
        ) -> u64;
        pub fn gintubalos_target(
            price: u64,
            forward: u64,
            strike: u64,
            expiry: u64,
            option_type: u8,
            rule_set: u32,
            number: &mut u8,
        ) -> u64;
        pub fn gintubalos_bid_ask(
            low: u64,
            high: u64,
            forward: u64,
            strike: u64,
            expiry: u64,
            option_type: u8,
            limit: i32,
            rule_set: u32,
            low_trail: *mut u8,
            low_trail_len: usize,
            high_trail: *mut u8,
            high_trail_len: usize,
            low_volatility: &mut u64,
            low_outcome: &mut u64,
            high_volatility: &mut u64,
            high_outcome: &mut u64,
        ) -> u8;
        pub fn gintubalos_bid_ask_without_trails(
            low: u64,
            high: u64,
            forward: u64,
            strike: u64,
            expiry: u64,
            option_type: u8,
            limit: i32,
            rule_set: u32,
            low_volatility: &mut u64,
            low_outcome: &mut u64,
            high_volatility: &mut u64,
            high_outcome: &mut u64,
        ) -> u8;
        pub fn gintubalos_black(
            forward: u64,
            strike: u64,
            sigma: u64,
            expiry: u64,
            option_type: u8,
            number: &mut u8,
        ) -> u64;
        pub fn gintubalos_file(
            price: u64,
            forward: u64,
            strike: u64,
            expiry: u64,
            option_type: u8,
            limit: i32,
            rule_set: u32,
            book: *mut u8,
            book_len: usize,
            used: u64,
            outcome: &mut u64,
        ) -> u64;
        pub fn gintubalos_recheck(
            book: *const u8,
            book_len: usize,
            used: u64,
            k: u64,
            rule_set: u32,
            outcome: &mut u64,
        ) -> u8;
        pub fn gintubalos_read(book: *const u8, book_len: usize, used: u64, k: u64, number: &mut u8) -> u64;
        pub fn gintubalos_line(index: u64, bytes: *const u8, len: usize, out: *mut u8, out_len: usize) -> usize;
        pub fn gintubalos_board_arrive(board: &mut [u8; BOARD_BYTES], series: u32, volatility: u64) -> u8;
        pub fn gintubalos_board_leave(board: &mut [u8; BOARD_BYTES], series: u32) -> u8;
        pub fn gintubalos_board_highest(board: &[u8; BOARD_BYTES], series: &mut u32, volatility: &mut u64) -> u8;
        pub fn gintubalos_packed_read(packed: &[u8; 8], number: &mut u8) -> u64;
        pub fn gintubalos_packed_write(price: u64, packed: &mut [u8; 8]) -> u8;
        pub fn gintubalos_sqrt(x: u64) -> u64;
        pub fn gintubalos_sqrt_digits(x: u64, turns: u32) -> u64;
        pub fn gintubalos_sqrt_aligned(x: u64, exponent: &mut i32) -> u64;
    }
}

/// The refusal's number, 0 where nothing is refused; branch and ending, 0 where it is; and the completed steps.
///
/// ```
/// use gintubalos::bits::Outcome;
///
/// assert_eq!(Outcome::from(0x0000_0003_0000_0007), Outcome { number: 7, branch: 0, ending: 0, steps: 3 });
/// ```
#[derive(Clone, Copy, Debug, PartialEq, Eq)]
pub struct Outcome {
    /// The refusal's number, 0 for none.
    pub number: u8,
    /// 0 to 5.
    pub branch: u8,
    /// 0 to 2.
    pub ending: u8,
    /// The completed steps.
    pub steps: u32,
}

/// number + 256 × branch + 65536 × ending + 2^32 × steps.
impl From<u64> for Outcome {
    fn from(word: u64) -> Outcome {
        let [number, branch, ending, ..] = word.to_le_bytes();
        Outcome { number, branch, ending, steps: (word >> 32) as u32 }
    }
}

// SAFETY, for each: the function reads and writes the slices, the board or the packed price that it is lent and the words or
// the byte for what it answers, and nothing else; it has no requires, keeps no pointer, and is proved to end. Each is
// inlined, so that there is one call and not two.

/// The volatility's bits, a NaN's where it is refused, and the outcome's word. The steps' records go to the trail.
#[allow(clippy::too_many_arguments)]
#[inline]
pub fn solve_with_trail(
    price: u64,
    forward: u64,
    strike: u64,
    expiry: u64,
    option_type: u8,
    max_iteration: i32,
    rule_set: u32,
    trail: &mut [u8],
) -> (u64, u64) {
    let mut outcome = 0;
    let volatility = unsafe {
        archive::gintubalos_solve_with_trail(
            price,
            forward,
            strike,
            expiry,
            option_type,
            max_iteration,
            rule_set,
            trail.as_mut_ptr(),
            trail.len(),
            &mut outcome,
        )
    };
    (volatility, outcome)
}

/// The same with a limit of 2 and without a trail.
#[inline]
pub fn implied_volatility_from_a_transformed_rational_guess(
    price: u64,
    forward: u64,
    strike: u64,
    expiry: u64,
    option_type: u8,
    rule_set: u32,
) -> (u64, u64) {
    let mut outcome = 0;
    let volatility = unsafe {
        archive::gintubalos_implied_volatility_from_a_transformed_rational_guess(
            price,
            forward,
            strike,
            expiry,
            option_type,
            rule_set,
            &mut outcome,
        )
    };
    (volatility, outcome)
}

/// The same with any limit and without a trail.
#[inline]
pub fn solve_without_trail(
    price: u64,
    forward: u64,
    strike: u64,
    expiry: u64,
    option_type: u8,
    max_iteration: i32,
    rule_set: u32,
) -> (u64, u64) {
    let mut outcome = 0;
    let volatility = unsafe {
        archive::gintubalos_solve_without_trail(
            price,
            forward,
            strike,
            expiry,
            option_type,
            max_iteration,
            rule_set,
            &mut outcome,
        )
    };
    (volatility, outcome)
}

/// The bits of the price that the loop seeks, and 0; a NaN's and 0 where the answer comes without a loop; a NaN's and the
/// number where it is refused.
#[inline]
pub fn target(price: u64, forward: u64, strike: u64, expiry: u64, option_type: u8, rule_set: u32) -> (u64, u8) {
    let mut number = 0;
    let target =
        unsafe { archive::gintubalos_target(price, forward, strike, expiry, option_type, rule_set, &mut number) };
    (target, number)
}

/// The number that refuses the whole call, 0 for none, and of the low and of the high price what solve with a trail answers:
/// the volatility's bits and the outcome's word. Where the number is not 0 both trails stay, both volatilities are a NaN's
/// bits and both outcomes hold that number.
#[allow(clippy::too_many_arguments)]
#[inline]
pub fn bid_ask(
    low: u64,
    high: u64,
    forward: u64,
    strike: u64,
    expiry: u64,
    option_type: u8,
    limit: i32,
    rule_set: u32,
    low_trail: &mut [u8],
    high_trail: &mut [u8],
) -> (u8, [(u64, u64); 2]) {
    let mut ends = [(0, 0); 2];
    let [low_end, high_end] = &mut ends;
    let number = unsafe {
        archive::gintubalos_bid_ask(
            low,
            high,
            forward,
            strike,
            expiry,
            option_type,
            limit,
            rule_set,
            low_trail.as_mut_ptr(),
            low_trail.len(),
            high_trail.as_mut_ptr(),
            high_trail.len(),
            &mut low_end.0,
            &mut low_end.1,
            &mut high_end.0,
            &mut high_end.1,
        )
    };
    (number, ends)
}

/// The same without trails.
#[allow(clippy::too_many_arguments)]
#[inline]
pub fn bid_ask_without_trails(
    low: u64,
    high: u64,
    forward: u64,
    strike: u64,
    expiry: u64,
    option_type: u8,
    limit: i32,
    rule_set: u32,
) -> (u8, [(u64, u64); 2]) {
    let mut ends = [(0, 0); 2];
    let [low_end, high_end] = &mut ends;
    let number = unsafe {
        archive::gintubalos_bid_ask_without_trails(
            low,
            high,
            forward,
            strike,
            expiry,
            option_type,
            limit,
            rule_set,
            &mut low_end.0,
            &mut low_end.1,
            &mut high_end.0,
            &mut high_end.1,
        )
    };
    (number, ends)
}

/// The Black price's bits, a NaN's where it is refused, and the number, 0 where it isn't.
#[inline]
pub fn black(forward: u64, strike: u64, sigma: u64, expiry: u64, option_type: u8) -> (u64, u8) {
    let mut number = 0;
    let price = unsafe { archive::gintubalos_black(forward, strike, sigma, expiry, option_type, &mut number) };
    (price, number)
}

/// The used count after filing, 0 where it is refused, and the outcome's word: branch and ending are in the book.
#[allow(clippy::too_many_arguments)]
#[inline]
pub fn file(
    price: u64,
    forward: u64,
    strike: u64,
    expiry: u64,
    option_type: u8,
    limit: i32,
    rule_set: u32,
    book: &mut [u8],
    used: u64,
) -> (u64, u64) {
    let mut outcome = 0;
    let count = unsafe {
        archive::gintubalos_file(
            price,
            forward,
            strike,
            expiry,
            option_type,
            limit,
            rule_set,
            book.as_mut_ptr(),
            book.len(),
            used,
            &mut outcome,
        )
    };
    (count, outcome)
}

/// 1 where record k agrees with what its input answers now, 0 where it differs or is refused, and the outcome's word.
#[inline]
pub fn recheck(book: &[u8], used: u64, k: u64, rule_set: u32) -> (u8, u64) {
    let mut outcome = 0;
    let agrees = unsafe { archive::gintubalos_recheck(book.as_ptr(), book.len(), used, k, rule_set, &mut outcome) };
    (agrees, outcome)
}

/// The byte at which record k's part of the book begins, and 0; or 0 and 23.
#[inline]
pub fn read(book: &[u8], used: u64, k: u64) -> (u64, u8) {
    let mut number = 0;
    let at = unsafe { archive::gintubalos_read(book.as_ptr(), book.len(), used, k, &mut number) };
    (at, number)
}

/// The length of relist's line, written at the start of `out`; an `out` under 128 bytes stays, and the answer is 0.
#[inline]
pub fn line(index: u64, bytes: &[u8], out: &mut [u8]) -> usize {
    unsafe { archive::gintubalos_line(index, bytes.as_ptr(), bytes.len(), out.as_mut_ptr(), out.len()) }
}

/// The number that refuses the quote, 33 to 35, 0 for none. A refused call leaves the board.
#[inline]
pub fn board_arrive(board: &mut [u8; BOARD_BYTES], series: u32, volatility: u64) -> u8 {
    unsafe { archive::gintubalos_board_arrive(board, series, volatility) }
}

/// 1 where the series was live, and has left; 0 where it was not, which leaves the board.
#[inline]
pub fn board_leave(board: &mut [u8; BOARD_BYTES], series: u32) -> u8 {
    unsafe { archive::gintubalos_board_leave(board, series) }
}

/// 1, and the highest quote's series and its volatility's bits; or three zeros, for none.
#[inline]
pub fn board_highest(board: &[u8; BOARD_BYTES]) -> (u8, u32, u64) {
    let (mut series, mut volatility) = (0, 0);
    let found = unsafe { archive::gintubalos_board_highest(board, &mut series, &mut volatility) };
    (found, series, volatility)
}

/// The price's bits, and 0; or a NaN's, and 36.
#[inline]
pub fn packed_read(packed: &[u8; 8]) -> (u64, u8) {
    let mut number = 0;
    let price = unsafe { archive::gintubalos_packed_read(packed, &mut number) };
    (price, number)
}

/// The number that refuses the price, 37, 0 for none. A refused call leaves the 8 bytes.
#[inline]
pub fn packed_write(price: u64, packed: &mut [u8; 8]) -> u8 {
    unsafe { archive::gintubalos_packed_write(price, packed) }
}

/// The root's bits, a NaN's for a NaN and what is below 0.
#[inline]
pub fn sqrt(x: u64) -> u64 {
    unsafe { archive::gintubalos_sqrt(x) }
}

/// The first `turns` binary digits of the aligned significand's root, past the last turn the last one's; 0 for turns 0 and
/// for an x that is not positive and finite.
#[inline]
pub fn sqrt_digits(x: u64, turns: u32) -> u64 {
    unsafe { archive::gintubalos_sqrt_digits(x, turns) }
}

/// The aligned significand times 2^52, and the exponent; two zeros for an x that is not positive and finite.
#[inline]
pub fn sqrt_aligned(x: u64) -> (u64, i32) {
    let mut exponent = 0;
    let significand = unsafe { archive::gintubalos_sqrt_aligned(x, &mut exponent) };
    (significand, exponent)
}
