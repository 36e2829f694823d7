//! The bits do not depend on the caller's floating-point environment, and a call leaves it as it was.

use gintubalos::{
    implied_volatility_from_a_transformed_rational_guess as wrapper,
    implied_volatility_from_a_transformed_rational_guess_with_limited_iterations as limited,
    probe::*,
    OptionType::{Call, Put},
    RuleSet::{Original, TextbookCaps},
    *,
};
use std::arch::asm;

const DEFAULT: u32 = 0x1F80;

/// Rounding downward, upward and toward zero; subnormal numbers flushed to zero, and taken for zero; all of it; and
/// exceptions that would trap, if any came.
const OTHERS: [u32; 7] = [0x3F80, 0x5F80, 0x7F80, 0x9F80, 0x1FC0, 0xFFC0, 0x1F00];

fn control_word() -> u32 {
    let mut word = 0u32;
    unsafe { asm!("stmxcsr [{}]", in(reg) &mut word, options(nostack, preserves_flags)) };
    word
}

fn set_control_word(word: u32) {
    unsafe { asm!("ldmxcsr [{}]", in(reg) &word, options(nostack, preserves_flags)) };
}

/// The same call in every environment: what it answers, and that the word is as it was, flags included.
fn everywhere<R: PartialEq + std::fmt::Debug>(name: &str, mut call: impl FnMut() -> R) {
    let expected = call();
    for word in OTHERS {
        set_control_word(word);
        let answer = call();
        let after = control_word();
        set_control_word(DEFAULT);
        assert_eq!(answer, expected, "{name} at {word:X}");
        assert_eq!(after, word, "{name}");
    }
}

#[test]
fn same_bits_everywhere() {
    const TINY: f64 = 4e-310;
    const TWICE_TINY: f64 = 8e-310;
    let bits = |answer: Result<f64, Refusal>| answer.map(f64::to_bits);
    everywhere("exp", || exp(0.3).to_bits());
    everywhere("exp of a subnormal", || exp(-740.0).to_bits());
    everywhere("sqrt", || sqrt(TINY).to_bits());
    // Taken for a zero it would have none.
    everywhere("digits of a subnormal", || sqrt_digits(TINY, 9));
    everywhere("aligned significand of a subnormal", || sqrt_aligned(TINY));
    everywhere("erfc", || erfc(-1.7).to_bits());
    everywhere("cdf", || standard_normal_cdf(-37.9).to_bits());
    everywhere("inverse", || inverse_normal_cdf(0.3).to_bits());
    everywhere("black", || bits(black(100.0, 95.0, 0.2, 1.0, Call)));
    everywhere("solve", || bits(wrapper(10.0, 100.0, 95.0, 1.0, Call)));
    everywhere("solve without a trail", || limited(10.0, 100.0, 95.0, 1.0, Call, 9));
    everywhere("solve of a subnormal price", || limited(TINY, 100.0, 100.0, 1.0, Put, 9));
    everywhere("solve under the textbook's caps", || solve(120.0, 200.0, 100.0, 1.0, Call, 9, TextbookCaps));
    everywhere("target", || target(10.0, 100.0, 95.0, 1.0, Call, Original).map(|target| target.map(f64::to_bits)));
    everywhere("solve with a trail", || {
        let mut trail = [0; 9 * STEP_BYTES];
        (solve_with_trail(10.0, 100.0, 95.0, 1.0, Call, 9, Original, &mut trail), trail)
    });
    everywhere("bid and ask", || bid_ask(9.5, 10.5, 100.0, 95.0, 1.0, Call, 9, Original));
    everywhere("bid and ask with trails", || {
        let (mut low, mut high) = ([0; 9 * STEP_BYTES], [0; 9 * STEP_BYTES]);
        (bid_ask_with_trails(9.5, 10.5, 100.0, 95.0, 1.0, Call, 9, Original, &mut low, &mut high), low, high)
    });
    // Taken for zeros they would be equal.
    everywhere("subnormal prices, low above high", || bid_ask(TWICE_TINY, TINY, 100.0, 100.0, 1.0, Put, 9, Original));
    // Taken for zeros the first would be the highest.
    everywhere("a board of subnormal volatilities", || {
        let mut board = Board::new();
        let arrivals = [board.arrive(17, TINY), board.arrive(18, TWICE_TINY), board.arrive(19, f64::NAN)];
        (arrivals, board.highest(), board.leave(17), board)
    });
    everywhere("packed prices that are read", || {
        let packed =
            [[0, 0, 0, 0, 0x01, 0x23, 0x45, 0x6C], [0x99, 0x99, 0x99, 0x99, 0x99, 0x99, 0x99, 0x9D], [0xFF; 8]];
        packed.map(|bytes| bits(f64::try_from(PackedPrice(bytes))))
    });
    // Halfway between two ten-thousandths, on either side of it, and the ends.
    everywhere("packed prices that are written", || {
        let halfway = 0.03125f64;
        [halfway.next_down(), halfway, halfway.next_up(), -1e-5, TINY, 99_999_999_999.999_94, 1e11, f64::NAN]
            .map(|price| [PackedPrice::try_from(price), PackedPrice::try_from(-price)])
    });
    everywhere("file, recheck and line", || {
        let mut book = [0; RECORD_BYTES];
        let filed = file(10.0, 100.0, 95.0, 1.0, Call, 9, Original, &mut book, 0);
        (filed, book, recheck(&book, 1, 0, Original), line(0, &book))
    });
}
