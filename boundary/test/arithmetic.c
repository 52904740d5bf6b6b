/* The calls of lib.rt and arithmetic.rt, on hostile numbers and keys. */
#include "hostile.h"
#include <math.h>

void try_version(void) {
    judge(coinhamper_version() - COINHAMPER_VERSION, 0);
}

void try_state_words(void) {
    judge(coinhamper_state_words() - STATE_WORDS, 0);
}

void try_of_bits(void) {
    uint64_t b = odd_bits();
    judge_float(coinhamper_of_bits(b), float_of(b));
}

void try_to_bits(void) {
    double x = odd_float();
    judge(coinhamper_to_bits(x) == bits_of(x) ? 0 : 1, 0);
}

void try_minimum(void) {
    double a = odd_float(), b = once_in(4) ? a : odd_float();
    judge_float(coinhamper_minimum(a, b), minimum_rule(a, b));
}

void try_maximum(void) {
    double a = odd_float(), b = once_in(4) ? a : odd_float();
    judge_float(coinhamper_maximum(a, b), maximum_rule(a, b));
}

void try_absolute(void) {
    double x = odd_float();
    judge_float(coinhamper_absolute(x), fabs(x));
}

void try_clamp(void) {
    double x = odd_float();
    judge_float(coinhamper_clamp(x), clamp_rule(x));
}

void try_of_u64(void) {
    uint64_t n = odd_number();
    judge_float(coinhamper_of_u64(n), (double)n);
}

void try_truncate(void) {
    double x = odd_float();
    judge(coinhamper_truncate(x) == (x >= 18446744073709551616.0 ? UINT64_MAX : x > 0 ? (uint64_t)x : 0) ? 0 : 1, 0);
}

void try_sqrt(void) {
    uint64_t n = odd_number();
    judge_float(coinhamper_sqrt(n), sqrt((double)n));
}

/* 2^-40 of the rule, and the last place of the C library's. */
void try_ln_1p(void) {
    uint64_t age = odd_number();
    judge(fabs(coinhamper_ln_1p(age) - log1p((double)age)) <= 0x1p-40 + 0x1p-46 ? 0 : 1, 0);
}

void try_compare(void) {
    struct lent *a = lend(false, below(12)), *b = lend(false, below(12));
    for (size_t i = 0; i < a->bytes; i++) ((uint8_t *)a->fill)[i] = (uint8_t)(254 + below(2));
    for (size_t i = 0; i < b->bytes; i++) ((uint8_t *)b->fill)[i] = i < a->bytes && !once_in(6) ? ((uint8_t *)a->fill)[i] : (uint8_t)any();
    size_t n = a->bytes < b->bytes ? a->bytes : b->bytes;
    int order = memcmp(a->fill, b->fill, n);
    uint64_t want = order < 0 ? 0 : order > 0 ? 2 : a->bytes < b->bytes ? 0 : a->bytes > b->bytes ? 2 : 1;
    judge(coinhamper_compare(BYTES(a), BYTES(b)) == want ? 0 : 1, 0);
}
