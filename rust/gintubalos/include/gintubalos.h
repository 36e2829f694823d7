/* The proved functions that programs use, for C: link libabi.a. Documents 01 and 02 have the rules. The functions behind
 * these, which only the comparison with the Rust and the bench call, are in gintubalos_probe.h.
 *
 * A float crosses as its 64 bits, in both directions: any 64 bits may come in, and a NaN comes back as 7FF8000000000000.
 * What is not a price, a forward, a strike, an expiry or a sigma is refused with a number. A slice is a pointer and its
 * length in bytes, a board a pointer to its GINTUBALOS_BOARD_BYTES bytes, a packed price one to its GINTUBALOS_PACKED_BYTES
 * bytes. No pointer may be null, also where its length is 0, and what one call is lent may not overlap. Every call returns;
 * none keeps a pointer, has a state or calls another library: a board's state is the caller's bytes.
 *
 * The archive is for x86-64 Linux, and all bits rest on the default floating-point environment: rounding to nearest, no
 * exception traps, subnormal numbers neither flushed to zero nor taken for zero. It is the caller's to see to it: a program
 * that has set MXCSR otherwise (-ffast-math does, at its start) gets other bits. gintubalos_environment_is_default says
 * whether it holds.
 *
 * A rule set is a number. Rule set 0 is the original library's: a Call is capped at the strike, a Put at the forward; from
 * that price on the answer is the above-maximum sentinel. Rule set 1 is the textbook's caps: a Call is capped at the
 * forward, a Put at the strike; all else is rule set 0. Any other number is refused with 32 before all else, but at a
 * recheck after 23 and 24. The Black price does not depend on it, and relist's line is solved under rule set 0.
 *
 * A kind is 1 for a Call, 2 for a Put; any other is refused with 24 after 32, at the Black price before all else.
 *
 * The numbers of a refusal, by cause:
 *    1 the price is not finite
 *    2 the forward, 3 the strike, 4 the expiry is not a positive normal finite number
 *    5 sigma is not finite
 *    6 the cubic got an infinite x, x_l or x_r
 *    7 the asymptotic expansion was asked for outside its region
 *    8 the expansion for a small t was asked for at t >= 2 x 0.10566243270259357
 *   21 the trail is shorter than 48 x max(limit, 0) bytes
 *   22 the book has no free slot
 *   23 the record number is not below the used count, or that count is above the book's whole slots
 *   24 the record's kind, branch, ending or spare bytes are outside the layout
 *   31 the low price is above the high price
 *   32 the rule set is unknown
 *   33 the volatility is NaN
 *   34 the series is live already
 *   35 256 quotes are live
 *   36 the packed price has a digit above 9, a sign other than C or D, or zero with D
 *   37 the price is not finite, or after rounding needs more than 15 digits
 */
#ifndef GINTUBALOS_H
#define GINTUBALOS_H

#include <stddef.h>
#include <stdint.h>
#include <xmmintrin.h>

#ifdef __cplusplus
extern "C" {
#endif

#define GINTUBALOS_CALL 1
#define GINTUBALOS_PUT 2

/* The rule sets: the original library's caps, and the textbook's. */
#define GINTUBALOS_RULE_SET_0 0u
#define GINTUBALOS_RULE_SET_1 1u

/* The bytes of a step's record in a trail and of a record in a book, those that any line of relist fits in, those of a live
 * board, which is empty where all are zero, and those of a packed price. */
#define GINTUBALOS_STEP_BYTES 48
#define GINTUBALOS_RECORD_BYTES 64
#define GINTUBALOS_LINE_BYTES 128
#define GINTUBALOS_BOARD_BYTES 3076
#define GINTUBALOS_PACKED_BYTES 8

/* The turns of a square root, one for each binary digit of a float. */
#define GINTUBALOS_SQRT_TURNS 53

/* What an outcome's word holds. Number: 0 where nothing is refused. Branch: 0 answered before a guess, 1 lower loop, 2 and
 * 3 lower and upper middle, 4 upper loop, 5 the rest of the upper tail. Ending: 0 no loop, 1 step test, 2 limit. Steps: the
 * completed ones. A refusal has branch and ending 0, and steps above 0 only where 7 comes inside a loop. */
#define GINTUBALOS_NUMBER(outcome) ((uint8_t)(outcome))
#define GINTUBALOS_BRANCH(outcome) ((uint8_t)((outcome) >> 8))
#define GINTUBALOS_ENDING(outcome) ((uint8_t)((outcome) >> 16))
#define GINTUBALOS_STEPS(outcome) ((uint32_t)((outcome) >> 32))

/* 1 in the default floating-point environment, which every call needs, else 0. It reads MXCSR and not its flags. */
static inline int gintubalos_environment_is_default(void) {
    return (_mm_getcsr() & 0xFFC0u) == 0x1F80u;
}

/* ---- The Black price, and the volatility of a price ---- */

/* The price's bits, a NaN's where it is refused: 2, 3, 5, 4, then 7. `number` gets the number, 0 for none. 7 comes at the
 * edge of the asymptotic region, and where forward / strike overflows or rounds to 0 and sigma is negative or -0 (unless
 * 0.5 x sigma^2 x expiry overflows). */
uint64_t gintubalos_black(uint64_t forward, uint64_t strike, uint64_t sigma, uint64_t expiry, uint8_t kind,
                          uint8_t *number);

/* The volatility's bits after two steps at most, a NaN's where it is refused: 32, 24 (kind), 1 to 4, then 6 or 7. */
uint64_t gintubalos_implied_volatility_from_a_transformed_rational_guess(uint64_t price, uint64_t forward, uint64_t strike,
                                                                         uint64_t expiry, uint8_t kind, uint32_t rule_set,
                                                                         uint64_t *outcome);

/* The same with any limit. */
uint64_t gintubalos_solve_without_trail(uint64_t price, uint64_t forward, uint64_t strike, uint64_t expiry, uint8_t kind,
                                        int32_t limit, uint32_t rule_set, uint64_t *outcome);

/* The same with any limit and a trail: 32, 24 (kind), 1 to 4, 21, then 6 or 7. Record i is at byte 48 x i: s, computed price
 * b, vega, left end and right end after the move, s after; six floats, little-endian. Bytes after the last record stay. */
uint64_t gintubalos_solve_with_trail(uint64_t price, uint64_t forward, uint64_t strike, uint64_t expiry, uint8_t kind,
                                     int32_t limit, uint32_t rule_set, uint8_t *trail, size_t trail_length,
                                     uint64_t *outcome);

/* The bits of the price that the loop seeks, out of the money and normalised: what the prices b of its records come near to.
 * A NaN's where the answer comes without a loop, with 0 in `number`, and where it is refused: 32, 24 (kind), 1 to 4, then 6
 * or 7. */
uint64_t gintubalos_target(uint64_t price, uint64_t forward, uint64_t strike, uint64_t expiry, uint8_t kind,
                           uint32_t rule_set, uint8_t *number);

/* Bid and ask together: each end has the volatility's bits, the outcome and, in its own trail, the records that the single
 * call with a trail gives for its price. A 6 or 7 is in its own end's outcome, and the other end still runs. Neither the two
 * trails nor the four words may overlap. The answer is 0, or the number that refuses the whole call: 32, 24 (kind), 1 for
 * low, 1 for high, 31, 2, 3, 4, 21 for the low trail, 21 for the high one. Then both trails stay, both volatilities are a
 * NaN's bits and both outcomes hold that number. */
uint8_t gintubalos_bid_ask(uint64_t low, uint64_t high, uint64_t forward, uint64_t strike, uint64_t expiry, uint8_t kind,
                           int32_t limit, uint32_t rule_set, uint8_t *low_trail, size_t low_trail_length,
                           uint8_t *high_trail, size_t high_trail_length, uint64_t *low_volatility, uint64_t *low_outcome,
                           uint64_t *high_volatility, uint64_t *high_outcome);

/* The same without trails. */
uint8_t gintubalos_bid_ask_without_trails(uint64_t low, uint64_t high, uint64_t forward, uint64_t strike, uint64_t expiry,
                                          uint8_t kind, int32_t limit, uint32_t rule_set, uint64_t *low_volatility,
                                          uint64_t *low_outcome, uint64_t *high_volatility, uint64_t *high_outcome);

/* ---- The book. A record has 64 bytes, little-endian: at 0 price, 8 forward, 16 strike, 24 expiry, 32 volatility (floats);
 * 40 limit (int32_t); 44 steps (uint32_t); 48 kind; 49 branch; 50 ending; 51 to 63 zero. A record does not name its rule
 * set. ---- */

/* Solves and writes slot `used`. The used count after it, 0 where it is refused: 32, 24 (kind), 1 to 4, 23, 22, then 6 or 7;
 * the book then stays. The outcome has number and steps of a refusal, else 0: branch, ending and steps are in the book. */
uint64_t gintubalos_file(uint64_t price, uint64_t forward, uint64_t strike, uint64_t expiry, uint8_t kind, int32_t limit,
                         uint32_t rule_set, uint8_t *book, size_t book_length, uint64_t used, uint64_t *outcome);

/* Solves record k again under the rule set that it was filed under: 1 where volatility, steps, branch and ending agree, 0
 * where one differs or it is refused: 23, 24, 32, 1 to 4, then 6 or 7. The outcome has number and steps of a refusal, else
 * 0. Under the other rule set a price between the two caps can differ. */
uint8_t gintubalos_recheck(const uint8_t *book, size_t book_length, uint64_t used, uint64_t k, uint32_t rule_set,
                           uint64_t *outcome);

/* The byte at which record k's part of the book begins, and 0 in `number`; or 0, and 23 there. */
uint64_t gintubalos_read(const uint8_t *book, size_t book_length, uint64_t used, uint64_t k, uint8_t *number);

/* Lays relist's line of a record, or of a last part under 64 bytes, at the start of `out`: its length, line feed included,
 * without a 0 at its end. An `out` under 128 bytes stays, and the answer is 0. */
size_t gintubalos_line(uint64_t index, const uint8_t *bytes, size_t length, uint8_t *out, size_t out_length);

/* ---- The live board: up to 256 quotes that come and go. Quote i, from 0 in order of arrival, is at byte 12 x i, first its
 * series (uint32_t), then its volatility's bits (uint64_t); the count of the live quotes (uint32_t) is at byte 3072; all
 * little-endian, the same in every version. Any bytes are a board: a count above 256 counts as 256, and where a series
 * stands twice the earlier one leaves. A refusal, and a leave of a series that is not live, change no byte. ---- */

/* A quote arrives, behind the others: 0, or the number that refuses it: 33, 34 (its series is live), then 35. Infinities are
 * volatilities like any other. */
uint8_t gintubalos_board_arrive(uint8_t *board, uint32_t series, uint64_t volatility);

/* The series' quote leaves: 1 where it was live, 0 where it was not. Those behind it move down a place, and the last one's
 * place, free now, becomes zero. */
uint8_t gintubalos_board_leave(uint8_t *board, uint32_t series);

/* 1, with the series and the volatility's own bits of the quote whose volatility is the highest; or 0 where no quote is
 * live, with 0 in both. Of equal volatilities it is the earliest arrival's; zeros of either sign are equal. A NaN, which
 * only bytes from elsewhere can have, is above nothing and nothing is above it: it is shown only where it stands first. */
uint8_t gintubalos_board_highest(const uint8_t *board, uint32_t *series, uint64_t *volatility);

/* ---- A packed price, as the clearing feed has it: 15 decimal digits, two per byte, the most significant first, and in the
 * last four bits the sign, hexadecimal C for plus and D for minus. The unit is one ten-thousandth: 12.3456 is the bytes 00
 * 00 00 00 01 23 45 6C. What is read and written again is the same bytes. ---- */

/* The bits of the nearest float, ties to even, with 0 in `number`; or a NaN's, with 36 there: a digit above 9, another sign,
 * or zero with D. */
uint64_t gintubalos_packed_read(const uint8_t *packed, uint8_t *number);

/* Writes the nearest ten-thousandth, ties to even, and answers 0; what rounds to zero has C. Or 37, and the bytes stay: the
 * price is not finite, or after rounding needs more than 15 digits. The largest that is written is 42374876E7FFFFFC. */
uint8_t gintubalos_packed_write(uint64_t price, uint8_t *packed);

/* ---- The square root. First the exponent is settled: x = significand x 2^exponent, where the exponent is even and the
 * significand, the aligned one, from 1 up and below 4. Then the binary digits of the significand's root are found from the
 * top, one per turn: after each the digits, followed by zeros, are the greatest such number whose square is not above the
 * significand. x's root is that root x 2^(exponent / 2). ---- */

/* The root's bits, rounded to nearest with ties to even, as IEEE 754's squareRoot: a zero stays itself, NaN for a NaN and
 * what is below 0, infinity for infinity. */
uint64_t gintubalos_sqrt(uint64_t x);

/* The digits after so many turns as a whole number; the point stands after the first one, which is 1. Past the last turn
 * they are the last one's. 0 for turns 0 and for an x that is not positive and finite. */
uint64_t gintubalos_sqrt_digits(uint64_t x, uint32_t turns);

/* The aligned significand x 2^52, from 2^52 up and below 2^54, and the exponent, even and from -1074 to 1022. Both are 0 for
 * an x that is not positive and finite. */
uint64_t gintubalos_sqrt_aligned(uint64_t x, int32_t *exponent);

#ifdef __cplusplus
}
#endif

#endif
