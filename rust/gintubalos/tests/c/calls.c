/* Calls every function of both headers and prints what each answers; tests/c.rs knows what it should be. */
#include "gintubalos_probe.h"

#include <inttypes.h>
#include <stdio.h>
#include <string.h>

static uint64_t bits(double x) {
    uint64_t word;
    memcpy(&word, &x, sizeof word);
    return word;
}

static void say(const char *name, uint64_t value, unsigned number) {
    printf("%s %016" PRIX64 " %u\n", name, value, number);
}

static void say_outcome(const char *name, uint64_t value, uint64_t outcome) {
    printf("%s %016" PRIX64 " %d %d %d %" PRIu32 "\n", name, value, GINTUBALOS_NUMBER(outcome),
           GINTUBALOS_BRANCH(outcome), GINTUBALOS_ENDING(outcome), GINTUBALOS_STEPS(outcome));
}

#define UNARY(name) say(#name, gintubalos_probe_##name(bits(0.75)), 0)

static void unary(void) {
    UNARY(bits_of), UNARY(is_zero), UNARY(abs), UNARY(powi_2), UNARY(floor), UNARY(exp), UNARY(ln);
    UNARY(powf_1_3), UNARY(d_int), UNARY(ab), UNARY(cd), UNARY(pq), UNARY(erfcx_above_threshold), UNARY(erfc);
    UNARY(smoothened_exponential_of_negative_square), UNARY(smoothened_exponential_of_positive_square), UNARY(erfcx);
    UNARY(standard_normal_cdf), UNARY(inverse_normal_cdf), UNARY(inverse_f_upper_map);
}

#define BINARY(name) say(#name, gintubalos_probe_##name(bits(-0.5), bits(0.125)), 0)
#define ANSWER(name, ...) value = gintubalos_probe_##name(__VA_ARGS__, &number), say(#name, value, number)
#define BLACK(...) value = gintubalos_black(__VA_ARGS__, &number), say("black", value, number)

static void prices(void) {
    const uint64_t zero = bits(0), one = bits(1), three = bits(3);
    uint8_t number;
    uint64_t value;
    BINARY(max), BINARY(normalised_vega), BINARY(normalised_black_call_using_erfcx);
    BINARY(normalised_black_call_with_optimal_use_of_codys_functions);
    say("mul_add", gintubalos_probe_mul_add(three, three, one), 0);
    ANSWER(normalised_intrinsic, one, GINTUBALOS_CALL);
    ANSWER(normalised_black, bits(0.5), bits(0.25), GINTUBALOS_PUT);
    ANSWER(normalised_black_call, bits(-0.5), bits(0.25));
    ANSWER(small_t_expansion_of_normalised_black_call, bits(-1), bits(0.25));
    ANSWER(asymptotic_expansion_of_normalised_black_call, bits(-9.5), bits(0.125));
    ANSWER(rational_cubic_interpolation, bits(0.5), zero, one, zero, one, zero, three, three);
    say("minimum_rational_cubic_control_parameter",
        gintubalos_probe_minimum_rational_cubic_control_parameter(zero, three, one, 1), 0);
    say("rational_cubic_control_parameter",
        gintubalos_probe_rational_cubic_control_parameter(zero, one, zero, one, zero, three, bits(6), 1), 0);
    say("convex_rational_cubic_control_parameter",
        gintubalos_probe_convex_rational_cubic_control_parameter(zero, one, zero, one, zero, three, zero, 0, 0), 0);
    BLACK(bits(100), bits(95), bits(0.2), one, GINTUBALOS_CALL);
    BLACK(bits(100), bits(95), bits(0.2), zero, GINTUBALOS_CALL);
    BLACK(bits(100), bits(95), bits(0.2), one, 3);
}

static void solves(void) {
    const uint64_t price = bits(10), forward = bits(100), strike = bits(95), expiry = bits(1);
    uint8_t trail[3 * GINTUBALOS_STEP_BYTES];
    uint64_t outcome, value, after;
    uint8_t number;
    value = gintubalos_target(price, forward, strike, expiry, GINTUBALOS_CALL, GINTUBALOS_RULE_SET_0, &number);
    say("target", value, number);
    value = gintubalos_target(bits(0), forward, strike, expiry, GINTUBALOS_PUT, GINTUBALOS_RULE_SET_0, &number);
    say("target", value, number);
    value = gintubalos_target(price, forward, strike, expiry, 3, GINTUBALOS_RULE_SET_0, &number);
    say("target", value, number);
    value = gintubalos_implied_volatility_from_a_transformed_rational_guess(
        price, forward, strike, expiry, GINTUBALOS_CALL, GINTUBALOS_RULE_SET_0, &outcome);
    say_outcome("wrapper", value, outcome);
    value = gintubalos_solve_without_trail(price, forward, strike, expiry, GINTUBALOS_CALL, 2, GINTUBALOS_RULE_SET_0,
                                           &outcome);
    say_outcome("untrailed", value, outcome);
    value = gintubalos_solve_with_trail(price, forward, strike, expiry, GINTUBALOS_CALL, 3, GINTUBALOS_RULE_SET_0, trail,
                                        sizeof trail, &outcome);
    say_outcome("solve", value, outcome);
    memcpy(&after, trail + sizeof trail - 8, 8);
    say("trail", after, 0);
    value = gintubalos_solve_with_trail(price, forward, strike, expiry, GINTUBALOS_CALL, 3, GINTUBALOS_RULE_SET_0, trail,
                                        sizeof trail - 1, &outcome);
    say_outcome("short", value, outcome);
}

/* The student's Call under the original library's caps, the textbook's, and a rule set that there is not. */
static void rule_sets(void) {
    const uint64_t price = bits(120), forward = bits(200), strike = bits(100), expiry = bits(1);
    const uint32_t rule_sets[] = {GINTUBALOS_RULE_SET_0, GINTUBALOS_RULE_SET_1, 2};
    uint8_t trail[2 * GINTUBALOS_STEP_BYTES], number;
    uint64_t outcome, value;
    for (int i = 0; i < 3; i++) {
        const uint32_t rule_set = rule_sets[i];
        value = gintubalos_implied_volatility_from_a_transformed_rational_guess(price, forward, strike, expiry,
                                                                               GINTUBALOS_CALL, rule_set, &outcome);
        say_outcome("wrapper", value, outcome);
        value = gintubalos_solve_without_trail(price, forward, strike, expiry, GINTUBALOS_CALL, 2, rule_set, &outcome);
        say_outcome("untrailed", value, outcome);
        value = gintubalos_solve_with_trail(price, forward, strike, expiry, GINTUBALOS_CALL, 2, rule_set, trail,
                                            sizeof trail, &outcome);
        say_outcome("solve", value, outcome);
        value = gintubalos_target(price, forward, strike, expiry, GINTUBALOS_CALL, rule_set, &number);
        printf("target %d %u\n", value < (uint64_t)0x7FF << 52, number);
    }
}

static void say_ends(const char *name, unsigned number, const uint64_t ends[4]) {
    printf("%s %u\n", name, number);
    say_outcome("low", ends[0], ends[1]);
    say_outcome("high", ends[2], ends[3]);
}

/* As a sheet gives them; with the high trail a byte short; with the prices exchanged, and no kind. */
static void ranges(void) {
    const uint64_t low = bits(9.5), high = bits(10.5), forward = bits(100), strike = bits(95), expiry = bits(1);
    uint8_t trails[2][2 * GINTUBALOS_STEP_BYTES], number;
    uint64_t ends[4], after;
    for (size_t i = 0; i < 2; i++) {
        number = gintubalos_bid_ask(low, high, forward, strike, expiry, GINTUBALOS_CALL, 2, GINTUBALOS_RULE_SET_0, trails[0],
                                    sizeof trails[0], trails[1], sizeof trails[1] - i, &ends[0], &ends[1], &ends[2],
                                    &ends[3]);
        say_ends("bid_ask", number, ends);
    }
    for (int i = 0; i < 2; i++) {
        memcpy(&after, trails[i] + sizeof trails[i] - 8, 8);
        say("trail", after, 0);
    }
    number = gintubalos_bid_ask_without_trails(low, high, forward, strike, expiry, GINTUBALOS_CALL, 2,
                                               GINTUBALOS_RULE_SET_0, &ends[0], &ends[1], &ends[2], &ends[3]);
    say_ends("untrailed", number, ends);
    number = gintubalos_bid_ask_without_trails(high, low, forward, strike, expiry, GINTUBALOS_CALL, 2,
                                               GINTUBALOS_RULE_SET_0, &ends[0], &ends[1], &ends[2], &ends[3]);
    say_ends("untrailed", number, ends);
    number = gintubalos_bid_ask_without_trails(high, low, forward, strike, expiry, 3, 2, GINTUBALOS_RULE_SET_0, &ends[0],
                                               &ends[1], &ends[2], &ends[3]);
    say_ends("untrailed", number, ends);
    number = gintubalos_bid_ask_without_trails(bits(99), bits(120), bits(200), bits(100), expiry, GINTUBALOS_CALL, 2,
                                               GINTUBALOS_RULE_SET_1, &ends[0], &ends[1], &ends[2], &ends[3]);
    say_ends("untrailed", number, ends);
    number = gintubalos_bid_ask(high, low, forward, strike, expiry, 3, 2, 2, trails[0], 0, trails[1], 0, &ends[0], &ends[1],
                                &ends[2], &ends[3]);
    say_ends("bid_ask", number, ends);
}

static void book(void) {
    uint8_t records[2 * GINTUBALOS_RECORD_BYTES] = {0}, line[GINTUBALOS_LINE_BYTES], number;
    uint64_t outcome, value, used = 0;
    for (int i = 0; i < 3; i++) {
        value = gintubalos_file(bits(10), bits(100), bits(95), bits(1), GINTUBALOS_CALL, 2, GINTUBALOS_RULE_SET_0, records,
                                sizeof records, used, &outcome);
        say_outcome("file", value, outcome);
        used += GINTUBALOS_NUMBER(outcome) == 0;
    }
    records[32] ^= 1;
    for (uint64_t k = 0; k < 3; k++) {
        value = gintubalos_recheck(records, sizeof records, used, k, GINTUBALOS_RULE_SET_0, &outcome);
        say_outcome("recheck", value, outcome);
        value = gintubalos_read(records, sizeof records, used, k, &number);
        say("read", value, number);
    }
    size_t length = gintubalos_line(7, records, GINTUBALOS_RECORD_BYTES, line, sizeof line);
    printf("line %.*s", (int)length, (const char *)line);
}

/* The student's Call, filed under the textbook's caps: its rechecks, relist's line, and what is not filed. */
static void filed_by_the_textbook(void) {
    const uint64_t price = bits(120), forward = bits(200), strike = bits(100), expiry = bits(1);
    uint8_t record[GINTUBALOS_RECORD_BYTES], line[GINTUBALOS_LINE_BYTES];
    uint64_t outcome, value;
    for (uint32_t rule_set = GINTUBALOS_RULE_SET_1; rule_set < 3; rule_set++) {
        value = gintubalos_file(price, forward, strike, expiry, GINTUBALOS_CALL, 2, rule_set, record, sizeof record, 0,
                                &outcome);
        say_outcome("file", value, outcome);
    }
    for (uint32_t rule_set = 0; rule_set < 3; rule_set++) {
        value = gintubalos_recheck(record, sizeof record, 1, 0, rule_set, &outcome);
        say_outcome("recheck", value, outcome);
    }
    size_t length = gintubalos_line(8, record, sizeof record, line, sizeof line);
    printf("line %.*s", (int)length, (const char *)line);
}

static void say_highest(const uint8_t *board) {
    uint32_t series = 1;
    uint64_t volatility = 1;
    uint8_t found = gintubalos_board_highest(board, &series, &volatility);
    printf("highest %u %" PRIu32 " %016" PRIX64 "\n", found, series, volatility);
}

/* Quotes come and go, with zeros of either sign; a full board, and its freed place. */
static void live_board(void) {
    const struct { uint32_t series; uint64_t volatility; } quotes[] = {
        {17, bits(-0.0)}, {17, UINT64_C(0xFFF0000000000001)}, {17, bits(1)}, {UINT32_MAX, bits(0)}};
    uint8_t board[GINTUBALOS_BOARD_BYTES] = {0}, number = 0;
    say_highest(board);
    for (int i = 0; i < 4; i++) {
        printf("arrive %u\n", gintubalos_board_arrive(board, quotes[i].series, quotes[i].volatility));
    }
    say_highest(board);
    for (int i = 0; i < 2; i++) {
        printf("leave %u\n", gintubalos_board_leave(board, 17));
        say_highest(board);
    }
    for (uint32_t series = 0; number == 0; series++) {
        number = gintubalos_board_arrive(board, series, bits(series));
    }
    printf("full %u %d %d\n", number, board[3072], board[3073]);
    say_highest(board);
    printf("leave %u\n", gintubalos_board_leave(board, 254));
    printf("freed %d %d %d\n", board[3059], board[3060], board[3072]);
}

/* Prices on either side of zero, what rounds to zero, the largest and the next one, and a NaN; each over bytes that are no
 * price, and read again. */
static void packed_prices(void) {
    const uint64_t prices[] = {bits(12.3456), bits(-12.5), bits(-0.00001), UINT64_C(0x42374876E7FFFFFC),
                               UINT64_C(0x42374876E7FFFFFD), UINT64_C(0x7FF8000000000000)};
    for (int i = 0; i < 6; i++) {
        uint8_t packed[GINTUBALOS_PACKED_BYTES], number = 1;
        memset(packed, 0xA5, sizeof packed);
        uint8_t refused = gintubalos_packed_write(prices[i], packed);
        printf("packed ");
        for (size_t k = 0; k < sizeof packed; k++) {
            printf("%02X", packed[k]);
        }
        printf(" %u\n", refused);
        uint64_t price = gintubalos_packed_read(packed, &number);
        say("read", price, number);
    }
}

/* A half, the least float, a zero, what is below 0, and infinity: the first turns' digits, and those of the last turn, of the
 * next one and of the most that can be asked for. */
static void square_roots(void) {
    const uint64_t numbers[] = {bits(0.5), 1, bits(-0.0), bits(-1), UINT64_C(0x7FF0000000000000)};
    const uint32_t ends[] = {GINTUBALOS_SQRT_TURNS, GINTUBALOS_SQRT_TURNS + 1, UINT32_MAX};
    for (int i = 0; i < 5; i++) {
        const uint64_t x = numbers[i];
        int32_t exponent = 1;
        uint64_t significand = gintubalos_sqrt_aligned(x, &exponent);
        printf("sqrt %016" PRIX64 "\n", gintubalos_sqrt(x));
        printf("aligned %016" PRIX64 " %" PRId32 "\n", significand, exponent);
        printf("digits");
        for (uint32_t turns = 0; turns < 7; turns++) {
            printf(" %" PRIu64, gintubalos_sqrt_digits(x, turns));
        }
        printf("\ndigits");
        for (int k = 0; k < 3; k++) {
            printf(" %" PRIu64, gintubalos_sqrt_digits(x, ends[k]));
        }
        printf("\n");
    }
}

/* As it is, with upward rounding, with flushed subnormals, and with a flag alone. */
static void environment(void) {
    const unsigned word = _mm_getcsr();
    const unsigned words[] = {word, word | 0x4000u, word | 0x8000u, word | 0x20u};
    printf("environment");
    for (int i = 0; i < 4; i++) {
        _mm_setcsr(words[i]);
        int is_default = gintubalos_environment_is_default();
        _mm_setcsr(word);
        printf(" %d", is_default);
    }
    printf("\n");
}

int main(void) {
    environment();
    unary();
    prices();
    solves();
    rule_sets();
    ranges();
    book();
    filed_by_the_textbook();
    live_board();
    packed_prices();
    square_roots();
    return 0;
}
