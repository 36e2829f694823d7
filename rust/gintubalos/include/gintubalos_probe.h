/* The functions behind those of gintubalos.h, which has the rules of the border: for the comparison with the Rust and the
 * bench, and no part of what programs can rely on. */
#ifndef GINTUBALOS_PROBE_H
#define GINTUBALOS_PROBE_H

#include "gintubalos.h"

#ifdef __cplusplus
extern "C" {
#endif

/* ---- Prices. `number` gets the number, 0 for none; the value is then a NaN. ---- */

uint64_t gintubalos_probe_normalised_intrinsic(uint64_t x, uint8_t kind, uint8_t *number);
uint64_t gintubalos_probe_normalised_vega(uint64_t x, uint64_t s);
/* 7 at the asymptotic region's edge, from both. */
uint64_t gintubalos_probe_normalised_black(uint64_t x, uint64_t s, uint8_t kind, uint8_t *number);
uint64_t gintubalos_probe_normalised_black_call(uint64_t x, uint64_t s, uint8_t *number);
uint64_t gintubalos_probe_normalised_black_call_using_erfcx(uint64_t h, uint64_t t);
uint64_t gintubalos_probe_normalised_black_call_with_optimal_use_of_codys_functions(uint64_t x, uint64_t s);
/* 8 where t is too large. */
uint64_t gintubalos_probe_small_t_expansion_of_normalised_black_call(uint64_t h, uint64_t t, uint8_t *number);
/* 7 outside its region. */
uint64_t gintubalos_probe_asymptotic_expansion_of_normalised_black_call(uint64_t h, uint64_t t, uint8_t *number);

/* ---- The rational cubic. A side is Left at 0 and Right at any other byte, a choice is false at 0. ---- */

/* 6 where x, x_l or x_r is infinite. */
uint64_t gintubalos_probe_rational_cubic_interpolation(uint64_t x, uint64_t x_l, uint64_t x_r, uint64_t y_l, uint64_t y_r,
                                                       uint64_t d_l, uint64_t d_r, uint64_t r, uint8_t *number);
uint64_t gintubalos_probe_minimum_rational_cubic_control_parameter(uint64_t d_l, uint64_t d_r, uint64_t s,
                                                                   uint8_t prefer_shape_preservation_over_smoothness);
uint64_t gintubalos_probe_rational_cubic_control_parameter(uint64_t x_l, uint64_t x_r, uint64_t y_l, uint64_t y_r, uint64_t d_l,
                                                           uint64_t d_r, uint64_t second_derivative, uint8_t side);
uint64_t gintubalos_probe_convex_rational_cubic_control_parameter(uint64_t x_l, uint64_t x_r, uint64_t y_l, uint64_t y_r,
                                                                  uint64_t d_l, uint64_t d_r, uint64_t second_derivative,
                                                                  uint8_t prefer_shape_preservation_over_smoothness,
                                                                  uint8_t side);

/* ---- The normal distribution and Cody's functions ---- */

uint64_t gintubalos_probe_standard_normal_cdf(uint64_t x);
uint64_t gintubalos_probe_inverse_normal_cdf(uint64_t x);
uint64_t gintubalos_probe_inverse_f_upper_map(uint64_t f);
/* NaN from 2^1020 on, either way, since x times 16 overflows there; the cdf from 7FB6A09E667F3BCC on, either way. */
uint64_t gintubalos_probe_erfc(uint64_t x);
/* The largest float below -26.6287357137514. */
uint64_t gintubalos_probe_erfcx(uint64_t x);
uint64_t gintubalos_probe_erfcx_above_threshold(uint64_t y);
uint64_t gintubalos_probe_smoothened_exponential_of_negative_square(uint64_t y);
uint64_t gintubalos_probe_smoothened_exponential_of_positive_square(uint64_t x);
uint64_t gintubalos_probe_d_int(uint64_t x);
uint64_t gintubalos_probe_ab(uint64_t z);
uint64_t gintubalos_probe_cd(uint64_t y);
uint64_t gintubalos_probe_pq(uint64_t z);

/* ---- Elementary functions ---- */

/* x's own bits, 7FF8000000000000 at a NaN. */
uint64_t gintubalos_probe_bits_of(uint64_t x);
/* 1 for a zero, else 0. */
uint64_t gintubalos_probe_is_zero(uint64_t x);
uint64_t gintubalos_probe_abs(uint64_t x);
/* The other one if one is NaN; of two zeros of unequal sign, +0. */
uint64_t gintubalos_probe_max(uint64_t a, uint64_t b);
uint64_t gintubalos_probe_powi_2(uint64_t y);
/* IEEE 754's roundToIntegralTowardNegative and fusedMultiplyAdd. */
uint64_t gintubalos_probe_floor(uint64_t x);
uint64_t gintubalos_probe_mul_add(uint64_t a, uint64_t b, uint64_t c);
uint64_t gintubalos_probe_exp(uint64_t y);
uint64_t gintubalos_probe_ln(uint64_t y);
/* 0 for a zero. */
uint64_t gintubalos_probe_powf_1_3(uint64_t y);

#ifdef __cplusplus
}
#endif

#endif
