/* The calls of merges.rt, on hostile words. */
#include "hostile.h"
#include <math.h>

/* Well-formed words, before they are damaged. */
static uint64_t made[8 * 1025];

/* Most lists have no number twice: multiples of one number modulo a prime, and at times 2^64 - 1. */
static size_t make_tables(size_t keys) {
    size_t n = once_in(400) ? 1023 + below(3) : below(12);
    uint64_t prime = n < 41 ? 41 : 1031, times = 1 + below(prime - 1), first = below(prime);
    for (size_t i = 0; i < n; i++) {
        uint64_t *t = made + 7 * i;
        t[0] = (first + times * i) % prime;
        t[1] = below(4);
        t[2] = once_in(9) ? (uint64_t)1 << 40 : below(1000);
        for (size_t k = 3; k < 7; k += 2) {
            t[k] = below(keys + 1);
            t[k + 1] = below(keys - t[k] < 3 ? keys - t[k] + 1 : 4);
        }
    }
    if (n && once_in(5)) made[7 * below(n)] = UINT64_MAX;
    if (n && once_in(6)) made[7 * below(n)] = made[7 * below(n)];
    return 7 * n;
}

static size_t make_entries(void) {
    size_t n = once_in(20) ? 15 + below(3) : below(4);
    for (size_t i = 0; i < n; i++) {
        made[2 * i] = once_in(20) ? 0xfffffffe : below(4);
        made[2 * i + 1] = odd_number();
    }
    return 2 * n;
}

static size_t make_candidates(size_t numbers) {
    size_t n = once_in(50) ? 144 + below(3) : below(8);
    for (size_t i = 0; i < n; i++) {
        uint64_t *c = made + 6 * i;
        c[0] = once_in(30) ? 1 : 2 + below(2);
        c[1] = c[0] == 1 ? 0 : once_in(20) ? 0xffffffff : below(4);
        c[2] = c[0] == 2 ? 1 + below(8) : 0;
        c[3] = odd_number();
        c[4] = below(numbers + 1);
        c[5] = below(numbers - c[4] + 1);
        if (c[5] > 1024) c[5] -= below(2) * (c[5] - 1024);
    }
    return 6 * n;
}

static size_t make_estimates(size_t n) {
    for (size_t i = 0; i < n; i++) {
        uint64_t *e = made + 9 * i;
        e[0] = odd_number();
        e[1] = odd_number();
        e[2] = once_in(9) ? (uint64_t)1 << 50 : below(1000);
        e[3] = odd_number();
        e[4] = odd_number();
        e[5] = once_in(9) ? TOP53 : below(100);
        for (size_t k = 6; k < 9; k++) e[k] = once_in(30) ? (uint64_t)1 << 63 : bits_of(unit_float());
    }
    return 9 * n;
}

void try_generate_candidates(void) {
    static uint64_t all_candidates[COINHAMPER_MOST_CANDIDATE_WORDS], all_numbers[145 * 1024];
    struct lent *keys = lend(false, below(24));
    for (size_t i = 0; i < keys->bytes; i++) ((uint8_t *)keys->fill)[i] = (uint8_t)(once_in(2) ? below(3) : any());
    struct lent *tables = lend_words(false, made, make_tables(keys->bytes)), *over = lend_words(false, made, make_entries());
    uint64_t trigger = once_in(4) ? odd_number() : below(5);
    uint64_t want = generate_rule(tables->fill, tables->bytes / 8, keys->bytes, over->fill, over->bytes / 8);
    size_t c = 0, m = 0;
    /* with room enough it is accepted, and says what room would do */
    if (want == 0)
        WANT(coinhamper_generate_candidates(WORDS(tables), BYTES(keys), trigger, WORDS(over), all_candidates, COINHAMPER_MOST_CANDIDATE_WORDS, all_numbers,
                 145 * 1024, &c, &m) == 0);
    struct lent *candidates = lend_room(8 * odd_room(6 * c)), *numbers = lend_room(8 * odd_room(m)), *counts[2] = {lend_room(8), lend_room(8)};
    if (want == 0 && (candidates->bytes < 8 * 6 * c || numbers->bytes < 8 * m)) want = 9;
    lent_keep();
    uint64_t r = coinhamper_generate_candidates(WORDS(tables), BYTES(keys), trigger, WORDS(over), WORDS(candidates), WORDS(numbers), counts[0]->at,
        counts[1]->at);
    judge(r, want);
    left(candidates, r ? 0 : 8 * 6 * c);
    left(numbers, r ? 0 : 8 * m);
    left(counts[0], r ? 0 : 8);
    left(counts[1], r ? 0 : 8);
    if (r) return;
    WANT(FILL(counts[0])[0] == c && FILL(counts[1])[0] == m);
    WANT(!memcmp(candidates->fill, all_candidates, 8 * 6 * c) && !memcmp(numbers->fill, all_numbers, 8 * m));
}

void try_estimate_candidates(void) {
    size_t n = once_in(100) ? 1022 + below(6) : below(20);
    struct lent *tables = lend_words(false, made, make_tables(9)), *over = lend_words(false, made, make_entries());
    struct lent *candidates = lend_words(false, made, make_candidates(n));
    struct lent *numbers = lend(false, 8 * odd_length(n));
    for (size_t i = 0; i < numbers->bytes / 8; i++) FILL(numbers)[i] = once_in(20) ? odd_number() : below(40);
    uint64_t next = once_in(6) ? odd_number() : below(60);
    size_t answer = candidates->bytes / 48 * 9 * 8;
    struct lent *estimates = lend_room(8 * odd_room(answer / 8));
    lent_keep();
    uint64_t r = coinhamper_estimate_candidates(WORDS(tables), next, WORDS(over), WORDS(candidates), WORDS(numbers), WORDS(estimates));
    judge(r, estimate_rule(tables->fill, tables->bytes / 8, next, over->fill, over->bytes / 8, candidates->fill, candidates->bytes / 8, numbers->bytes / 8,
                 estimates->bytes / 8));
    left(estimates, r ? 0 : answer);
}

void try_cause_aware_score(void) {
    double l0 = odd_float(), debt = odd_float(), read = odd_float(), a = odd_float(), b = odd_float(), c = odd_float();
    uint64_t bytes = odd_number(), age = odd_number();
    double sum = l0 * a + debt * b + read * c + coinhamper_ln_1p(age) * 0.01; /* R5.13 */
    judge_float(coinhamper_cause_aware_score(l0, debt, read, bytes, age, a, b, c), sum / sqrt((double)(bytes ? bytes : 1)));
}

void try_pick_best_cause_aware(void) {
    struct lent *candidates = lend_words(false, made, make_candidates(9)), *estimates = lend_words(false, made, make_estimates(candidates->bytes / 48));
    struct lent *picked = lend_room(8 * odd_room(6));
    double l0 = once_in(30) ? odd_float() : unit_float(), debt = once_in(30) ? odd_float() : unit_float(), read = once_in(30) ? odd_float() : unit_float();
    uint64_t flag = once_in(20) ? odd_number() : below(2);
    uint32_t level = flag == 0 && !once_in(20) ? 0 : (uint32_t)(once_in(20) ? odd_number() : below(4));
    uint32_t streak = (uint32_t)(once_in(4) ? odd_number() : below(4));
    lent_keep();
    uint64_t r = coinhamper_pick_best_cause_aware(l0, debt, read, flag, level, streak, WORDS(candidates), WORDS(estimates), WORDS(picked));
    judge(r, pick_rule(l0, debt, read, flag, level, candidates->fill, candidates->bytes / 8, estimates->fill, estimates->bytes / 8, picked->bytes / 8));
    left(picked, r ? 0 : 48);
    if (r) return;
    uint64_t *p = picked->fill, n = candidates->bytes / 48;
    WANT(is_choice(p, 6) && is_focus(p[2], p[3]) && p[0] == (n > 0) && (n ? p[1] < n : p[1] == 0));
}

void try_scheduling_decision(void) {
    struct lent *candidates = lend_words(false, made, make_candidates(9)), *estimates = lend_words(false, made, make_estimates(candidates->bytes / 48));
    const uint64_t six[6] = {below(2), once_in(4) ? odd_number() : below(8), below(2), below(4), below(4), below(4)};
    struct lent *picked = lend_words(false, six, 6), *decision = lend_room(8 * odd_room(14));
    double l0 = odd_float(), debt = odd_float(), read = odd_float();
    lent_keep();
    uint64_t r = coinhamper_scheduling_decision(l0, debt, read, WORDS(picked), WORDS(candidates), WORDS(estimates), WORDS(decision));
    judge(r, !is_choice(picked->fill, picked->bytes / 8) ? 101 : decision->bytes < 14 * 8 ? 9 : 0);
    left(decision, r ? 0 : 14 * 8);
    if (r) return;
    uint64_t *d = decision->fill;
    WANT(d[0] == 0 && d[1] == bits_of(l0) && d[2] == bits_of(debt) && d[3] == bits_of(read) && d[4] == dominant_rule(l0, debt, read));
    WANT(d[5] == FILL(picked)[5] && d[6] == candidates->bytes / 48);
}
