/* Rows by hand: every export with an accepted call and, where it has refusals, each of them. The answers are those of docs/SCOPE.md and of README.md's worked
 * run. */
#include "test.h"
#include <fenv.h>
#include <math.h>
#if defined __x86_64__
#include <xmmintrin.h>
#endif

#define FILLED 0xeeeeeeeeeeeeeeeeu
#define COUNT(list) (sizeof(list) / sizeof *(list))

static uint64_t state[STATE_WORDS], old[STATE_WORDS];
static uint64_t head[COINHAMPER_HEAD_WORDS], log_words[COINHAMPER_LOG_WORDS + 1], log_old[COINHAMPER_LOG_WORDS + 1];

static void keep(void) {
    memcpy(old, state, sizeof state);
}

static bool kept(void) {
    return !memcmp(old, state, sizeof state);
}

static uint64_t mode(void) {
    uint64_t out[COINHAMPER_READING_WORDS] = {FILLED};
    WANT(coinhamper_read(state, STATE_WORDS, out, COINHAMPER_READING_WORDS) == 0);
    return out[0];
}

static uint64_t observed(uint64_t clock, uint64_t count, uint64_t trigger, double ratio, double probes) {
    return coinhamper_observe(state, STATE_WORDS, clock, count, trigger, ratio, probes, 0);
}

static void fresh(uint64_t clock) {
    WANT(coinhamper_fresh(state, STATE_WORDS, clock) == 0);
}

static void pauses(void) {
    uint64_t n = 7;
    WANT(coinhamper_pacing_delay(0, 0.0, &n) == 0 && n == 20000); /* P1 */
    WANT(coinhamper_pacing_delay(0, 0.5, &n) == 0 && n == 12500);
    WANT(coinhamper_pacing_delay(1, 0.0, &n) == 0 && n == 40000); /* P2 */
    WANT(coinhamper_pacing_delay(1, 0.25, &n) == 0 && n == 31250);
    for (uint64_t m = 0; m < 3; m++) WANT(coinhamper_pacing_delay(m, NAN, &n) == 0 && n == 5000); /* P3 */
    n = 7;
    WANT(coinhamper_pacing_delay(3, 0.0, &n) == 101 && n == 7);
    WANT(coinhamper_pacing_delay(UINT64_MAX, 0.0, &n) == 101 && n == 7);
    WANT(coinhamper_dominant(0.05, 0, 0) == 0 && coinhamper_dominant(0.5, 0.5, 0.5) == 1); /* P9 */
    WANT(coinhamper_dominant(0, 1, 0) == 2 && coinhamper_dominant(0, 0, 0.06) == 3 && coinhamper_dominant(NAN, NAN, NAN) == 3);
}

static void observations(void) {
    fresh(0);
    WANT(observed(1, 3, 4, 0, 0) == 0 && mode() == 2); /* P4 */
    WANT(observed(2, 0, 4, 0, 0) == 0 && observed(3, 0, 4, 0, 0) == 0 && mode() == 2); /* P5 */
    WANT(observed(4, 0, 4, 0, 0) == 0 && mode() == 0);
    fresh(0); /* P6 */
    const uint64_t counts[] = {3, 0, 0, 2, 0, 0};
    for (size_t i = 0; i < COUNT(counts); i++) WANT(observed(i, counts[i], 4, 0, 0) == 0 && mode() == 2);
    fresh(0);
    WANT(observed(0, 100, 0, NAN, 0) == 0 && mode() == 0); /* P7 */
    fresh(0); /* P8 */
    for (uint64_t i = 0; i < 3; i++) WANT(observed(i, 0, 0, 0, 10.0) == 0 && mode() == (i == 2));
    keep();
    WANT(observed(9, TOP53 + 1, 4, 0, 0) == 2 && observed(9, 0, TOP53 + 1, 0, 0) == 2 && kept());
    WANT(coinhamper_observe(state, STATE_WORDS, 9, 0, 4, 0, 0, TOP53 + 1) == 2 && kept());
    WANT(observed(9, TOP53, 4, 0, 0) == 0 && mode() == 2);
    state[17] = UINT64_MAX; /* the time in WriteEmergency */
    keep();
    WANT(observed(10, 0, 4, 0, 0) == 3 && kept());
    WANT(observed(9, 0, 4, 0, 0) == 0);
    fresh(9); /* a lower reading adds nothing and is not kept */
    const uint64_t readings[] = {9, 5, 7, 12}, times[] = {0, 0, 0, 3}, highest[] = {9, 9, 9, 12};
    for (size_t i = 0; i < COUNT(readings); i++) WANT(observed(readings[i], 0, 4, 0, 0) == 0 && state[15] == times[i] && state[18] == highest[i]);
    fresh(0);
    state[14] = 1; /* Balanced with a streak of WriteEmergency */
    keep();
    WANT(observed(1, TOP53 + 1, 4, 0, 0) == 1 && kept());
}

static void engine(void) {
    fresh(0); /* P8 by the engine's counters: ten more gets and a hundred more probes each time */
    for (uint64_t i = 1; i < 4; i++) {
        WANT(coinhamper_observe_engine(state, STATE_WORDS, i, 0, 0, 0, 0, 16 * i, 4 * i, 2 * i, 40 * i, 60 * i) == 0);
        WANT(mode() == (i == 3));
    }
    keep();
    WANT(coinhamper_observe_engine(state, STATE_WORDS, 4, TOP53 + 1, 0, 0, 0, 48, 12, 6, 120, 180) == 2 && kept());
    WANT(coinhamper_observe_engine(state, STATE_WORDS, 4, 0, 0, 0, 0, 48, 12, 6, UINT64_MAX, 1) == 2 && kept());
    state[19] = UINT64_MAX; /* the kept probe sum: the delta is 1, the sum past the top */
    keep();
    WANT(coinhamper_observe_engine(state, STATE_WORDS, 4, 0, 0, 0, 0, 48, 12, 6, UINT64_MAX, 1) == 3 && kept());
    state[12] = 1; /* ReadProtect with a streak of Balanced */
    keep();
    WANT(coinhamper_observe_engine(state, STATE_WORDS, 4, 0, 0, 0, 0, 48, 12, 6, UINT64_MAX, 1) == 1 && kept());
    WANT(coinhamper_observe_engine(state, STATE_WORDS - 1, 4, 0, 0, 0, 0, 0, 0, 0, 0, 0) == 100 && kept());
}

static void figures(void) {
    uint64_t out[15];
    fresh(0);
    WANT(observed(1000000, 3, 4, 0, 0) == 0);
    WANT(coinhamper_record_candidate_chosen(state, STATE_WORDS, 2, 1, 3) == 0 && coinhamper_record_candidate_chosen(state, STATE_WORDS, 2, 1, 4) == 0);
    WANT(coinhamper_record_candidate_chosen(state, STATE_WORDS, 1, 5, 6) == 0 && coinhamper_record_candidate_chosen(state, STATE_WORDS, 3, 5, 6) == 0);
    WANT(coinhamper_record_trivial_move(state, STATE_WORDS, 50) == 0);
    WANT(coinhamper_record_outcome(state, STATE_WORDS, 100, 150) == 0 && coinhamper_record_outcome(state, STATE_WORDS, 0, 2) == 0);
    WANT(coinhamper_set_focus(state, STATE_WORDS, 1, 7, 2) == 0);
    const uint64_t one = bits_of(1.0);
    const uint64_t reading[8] = {2, one, one, 0, 0, 1, 7, 2};
    const uint64_t stats[14] = {2, one, one, 0, 0, 1, 1, 0, 2, bits_of(3.5), 1, 50, 2, bits_of(1.25)};
    memset(out, 0xee, sizeof out);
    keep();
    WANT(coinhamper_read(state, STATE_WORDS, out, COINHAMPER_READING_WORDS - 1) == 9 && out[0] == FILLED);
    WANT(coinhamper_read(state, STATE_WORDS, out, 15) == 0 && !memcmp(out, reading, sizeof reading) && out[8] == FILLED);
    WANT(coinhamper_mode(state, STATE_WORDS, out + 9) == 0 && out[9] == 2 && out[10] == FILLED);
    memset(out, 0xee, sizeof out);
    WANT(coinhamper_snapshot(state, STATE_WORDS, 3500000, out, COINHAMPER_SNAPSHOT_WORDS - 1) == 9 && out[0] == FILLED);
    WANT(coinhamper_snapshot(state, STATE_WORDS, 3500000, out, 15) == 0 && !memcmp(out, stats, sizeof stats) && out[14] == FILLED);
    WANT(kept());
    WANT(coinhamper_record_candidate_chosen(state, STATE_WORDS, 0, 1, 3) == 101 && coinhamper_record_candidate_chosen(state, STATE_WORDS, 4, 1, 3) == 101);
    WANT(coinhamper_set_focus(state, STATE_WORDS, 2, 0, 0) == 101 && coinhamper_set_focus(state, STATE_WORDS, 0, 1, 0) == 101);
    WANT(coinhamper_record_outcome(state, STATE_WORDS, TOP53 + 1, 0) == 2 && coinhamper_record_outcome(state, STATE_WORDS, 0, TOP53 + 1) == 2);
    WANT(kept());
    WANT(coinhamper_set_focus(state, STATE_WORDS, 0, 0, 9) == 0 && coinhamper_read(state, STATE_WORDS, out, 8) == 0);
    WANT(out[5] == 0 && out[6] == 0 && out[7] == 9);
    state[24] = UINT64_MAX; /* moves */
    state[27] = UINT64_MAX; /* samples */
    keep();
    WANT(coinhamper_record_trivial_move(state, STATE_WORDS, 1) == 3 && coinhamper_record_outcome(state, STATE_WORDS, 1, 1) == 3 && kept());
    WANT(coinhamper_snapshot(state, STATE_WORDS, 0, out, 14) == 2);
    state[27] = 1;
    state[17] = UINT64_MAX;
    WANT(coinhamper_snapshot(state, STATE_WORDS, 1000001, out, 14) == 3);
    WANT(coinhamper_snapshot(state, STATE_WORDS, 1000000, out, COINHAMPER_SNAPSHOT_WORDS) == 0);
}

/* Each word that can make the words none, spoilt in turn, refused by every call that takes a state. */
static void no_states(void) {
    uint64_t out[14] = {FILLED};
    memset(state, 0, sizeof state);
    WANT(coinhamper_fresh(state, STATE_WORDS - 1, 5) == 100 && coinhamper_fresh(state, STATE_WORDS + 1, 5) == 100 && coinhamper_fresh(NULL, 0, 5) == 100);
    WANT(state[0] == 0 && observed(1, 0, 4, 0, 0) == 100);
    WANT(coinhamper_read(NULL, 0, NULL, 0) == 100 && coinhamper_snapshot(NULL, 0, 0, NULL, 0) == 100);
    static const uint64_t spoilt[][2] = {{0, 0}, {0, 0x436f696e68616d00}, {0, 0x436f696e68616d02}, {1, 3}, {9, 2}, {10, 1}, {11, 0x100000000},
        {12, 0x100000000}, {13, 0x100000000}, {14, 0x100000000}};
    for (size_t i = 0; i < COUNT(spoilt); i++) {
        fresh(5);
        state[spoilt[i][0]] = spoilt[i][1];
        keep();
        WANT(observed(9, TOP53 + 1, 4, 0, 0) == 100 && coinhamper_observe_engine(state, STATE_WORDS, 9, 0, 4, 0, 0, 0, 0, 0, 0, 0) == 100);
        WANT(coinhamper_record_candidate_chosen(state, STATE_WORDS, 9, 0, 0) == 100 && coinhamper_record_trivial_move(state, STATE_WORDS, 0) == 100);
        WANT(coinhamper_record_outcome(state, STATE_WORDS, TOP53 + 1, 0) == 100 && coinhamper_set_focus(state, STATE_WORDS, 5, 0, 0) == 100);
        WANT(coinhamper_read(state, STATE_WORDS, out, 0) == 100 && coinhamper_snapshot(state, STATE_WORDS, 9, out, 0) == 100);
        WANT(coinhamper_mode(state, STATE_WORDS, out) == 100);
        WANT(kept() && out[0] == FILLED);
    }
    uint64_t longer[STATE_WORDS + 1] = {0};
    fresh(5);
    memcpy(longer, state, sizeof state);
    WANT(coinhamper_observe(longer, STATE_WORDS + 1, 6, 0, 4, 0, 0, 0) == 100 && coinhamper_read(longer, STATE_WORDS + 1, out, 8) == 100);
    state[2] = 0x7ff4000000000001u; /* a signalling NaN: written anew as the one NaN */
    WANT(observed(6, 0, 4, 0, 0) == 0 && state[2] == 0x7ff8000000000000u);
}

/* README.md, from tables to a logged decision. */
static const uint64_t tables[28] = {7, 1, 100, 2, 1, 3, 1, 3, 1, 50, 0, 1, 1, 1, 9, 1, 10, 4, 1, 5, 1, 4, 2, 30, 3, 1, 4, 1};
static const uint8_t keys[] = {'a', 'b', 'c', 'd', 'e', 'f'};
static const uint64_t over[2] = {1, 100};
static const uint64_t candidates[24] = {2, 1, 1, 2, 0, 1, 2, 1, 2, 2, 1, 3, 2, 1, 3, 2, 4, 4, 3, 1, 0, 2, 8, 1};
static const uint64_t numbers[9] = {3, 3, 7, 4, 3, 7, 9, 4, 3};
static const uint64_t estimates[36] = {50, 0, 50, 50, 0, 7, 0, 4605681218924227243, 0, 150, 30, 180, 150, 0, 7, 0, 4607182418800017408, 0, 160, 30, 190, 160, 0,
    7, 0, 4607182418800017408, 0, 50, 0, 0, 50, 0, 7, 0, 4605681218924227243, 0};
static const uint64_t picked[6] = {1, 3, 1, 1, 1, 3};
static const uint64_t decision[14] = {0, 0, 4607182418800017408, 0, 2, 3, 4, 3, 1, 0, 0, 0, 4605681218924227243, 0};

static void merges(void) {
    uint64_t c[25], m[10];
    size_t cn = 77, mn = 88;
    memset(c, 0xee, sizeof c);
    memset(m, 0xee, sizeof m);
    WANT(coinhamper_generate_candidates(tables, 28, keys, 6, 4, over, 2, c, 23, m, 9, &cn, &mn) == 9);
    WANT(coinhamper_generate_candidates(tables, 28, keys, 6, 4, over, 2, c, 24, m, 8, &cn, &mn) == 9);
    WANT(coinhamper_generate_candidates(tables, 27, keys, 6, 4, over, 2, c, 24, m, 9, &cn, &mn) == 5);
    WANT(coinhamper_generate_candidates(tables, 28, keys, 5, 4, over, 2, c, 24, m, 9, &cn, &mn) == 5);
    const uint64_t high[2] = {0xffffffff, 1};
    WANT(coinhamper_generate_candidates(tables, 28, keys, 6, 4, high, 2, c, 24, m, 9, &cn, &mn) == 6);
    static const uint64_t many[7 * 1025];
    WANT(coinhamper_generate_candidates(many, 7 * 1025, keys, 6, 4, high, 2, c, 24, m, 9, &cn, &mn) == 4);
    WANT(coinhamper_generate_candidates(tables, 27, keys, 6, 4, many, 34, c, 24, m, 9, &cn, &mn) == 4);
    /* 3 in level 1 and in level 2: 5, then 11, then 6 */
    uint64_t twice[28];
    memcpy(twice, tables, sizeof tables);
    twice[21] = 3;
    WANT(coinhamper_generate_candidates(twice, 28, keys, 6, 4, over, 2, c, 24, m, 9, &cn, &mn) == 11);
    WANT(coinhamper_generate_candidates(twice, 28, keys, 6, 4, high, 2, c, 0, m, 0, &cn, &mn) == 11);
    WANT(coinhamper_generate_candidates(twice, 28, keys, 5, 4, over, 2, c, 24, m, 9, &cn, &mn) == 5);
    WANT(coinhamper_generate_candidates(twice, 27, keys, 6, 4, over, 2, c, 24, m, 9, &cn, &mn) == 5);
    WANT(c[0] == FILLED && m[0] == FILLED && cn == 77 && mn == 88);
    WANT(coinhamper_generate_candidates(twice, 21, keys, 6, 4, over, 2, c, 24, m, 9, &cn, &mn) == 0 && cn == 4 && mn == 9);
    memset(c, 0xee, sizeof c);
    memset(m, 0xee, sizeof m);
    WANT(coinhamper_generate_candidates(tables, 28, keys, 6, 4, over, 2, c, 25, m, 10, &cn, &mn) == 0 && cn == 4 && mn == 9); /* P10 */
    WANT(!memcmp(c, candidates, sizeof candidates) && !memcmp(m, numbers, sizeof numbers) && c[24] == FILLED && m[9] == FILLED);
    WANT(coinhamper_generate_candidates(NULL, 0, NULL, 0, 0, NULL, 0, NULL, 0, NULL, 0, &cn, &mn) == 0 && cn == 0 && mn == 0);

    uint64_t e[37], p[7], d[15];
    memset(e, 0xee, sizeof e);
    memset(p, 0xee, sizeof p);
    memset(d, 0xee, sizeof d);
    WANT(coinhamper_estimate_candidates(tables, 28, 10, over, 2, candidates, 24, numbers, 9, e, 35) == 9);
    WANT(coinhamper_estimate_candidates(tables, 28, TOP53 + 1, over, 2, candidates, 24, numbers, 9, e, 36) == 2);
    WANT(coinhamper_estimate_candidates(tables, 28, 10, high, 2, candidates, 24, numbers, 9, e, 36) == 6);
    WANT(coinhamper_estimate_candidates(tables, 28, 10, over, 2, candidates, 24, numbers, 8, e, 36) == 5);
    WANT(coinhamper_estimate_candidates(tables, 28, 10, over, 2, many, 6 * 146, numbers, 9, e, 36) == 4 && e[0] == FILLED);
    WANT(coinhamper_estimate_candidates(twice, 28, 10, over, 2, candidates, 24, numbers, 9, e, 36) == 11);
    WANT(coinhamper_estimate_candidates(twice, 28, TOP53 + 1, high, 2, candidates, 24, numbers, 9, e, 0) == 11);
    WANT(coinhamper_estimate_candidates(twice, 28, 10, over, 2, candidates, 24, numbers, 8, e, 36) == 5 && e[0] == FILLED);
    /* the first and the last of the most tables */
    static uint64_t most[7 * 1024];
    for (size_t i = 0; i < 1024; i++) most[7 * i] = UINT64_MAX - i;
    WANT(coinhamper_estimate_candidates(most, 7 * 1024, 10, NULL, 0, NULL, 0, NULL, 0, NULL, 0) == 0);
    most[7 * 1023] = UINT64_MAX;
    WANT(coinhamper_estimate_candidates(most, 7 * 1024, 10, NULL, 0, NULL, 0, NULL, 0, NULL, 0) == 11);
    WANT(coinhamper_generate_candidates(most, 7 * 1024, NULL, 0, 4, NULL, 0, NULL, 0, NULL, 0, &cn, &mn) == 11);
    WANT(coinhamper_estimate_candidates(most, 7 * 1023, 10, NULL, 0, NULL, 0, NULL, 0, NULL, 0) == 0);
    /* a candidate that names 3 twice has its bytes twice */
    const uint64_t again[6] = {2, 1, 2, 2, 0, 2}, named[2] = {3, 3};
    WANT(coinhamper_estimate_candidates(tables, 28, 10, over, 2, again, 6, named, 2, e, 9) == 0 && e[0] == 100 && e[1] == 0 && e[9] == FILLED);
    WANT(coinhamper_estimate_candidates(tables, 28, 10, over, 2, candidates, 24, numbers, 9, e, 37) == 0);
    WANT(!memcmp(e, estimates, sizeof estimates) && e[36] == FILLED);

    WANT(coinhamper_pick_best_cause_aware(0, 1, 0, 2, 0, 0, candidates, 24, estimates, 36, p, 6) == 101);
    WANT(coinhamper_pick_best_cause_aware(0, 1, 0, 0, 1, 0, candidates, 24, estimates, 36, p, 6) == 101);
    WANT(coinhamper_pick_best_cause_aware(0, 1, 0, 0, 0, 0, many, 6 * 146, estimates, 36, p, 6) == 4);
    WANT(coinhamper_pick_best_cause_aware(0, 1, 0, 0, 0, 0, candidates, 24, estimates, 27, p, 6) == 5);
    WANT(coinhamper_pick_best_cause_aware(NAN, 1, 0, 0, 0, 0, candidates, 24, estimates, 36, p, 6) == 7);
    memcpy(e, estimates, sizeof estimates);
    e[7] = bits_of(1.5);
    WANT(coinhamper_pick_best_cause_aware(0, 1, 0, 0, 0, 0, candidates, 24, e, 36, p, 5) == 8);
    WANT(coinhamper_pick_best_cause_aware(0, 1, 0, 0, 0, 0, candidates, 24, estimates, 36, p, COINHAMPER_CHOICE_WORDS - 1) == 9 && p[0] == FILLED);
    WANT(coinhamper_pick_best_cause_aware(0, 1, 0, 0, 0, 0, candidates, 24, estimates, 36, p, 7) == 0);
    WANT(!memcmp(p, picked, sizeof picked) && p[6] == FILLED);
    WANT(coinhamper_pick_best_cause_aware(0, 1, 0, 1, 4, 2, NULL, 0, NULL, 0, p, COINHAMPER_CHOICE_WORDS) == 0);
    WANT(p[0] == 0 && p[1] == 0 && p[2] == 0 && p[3] == 0 && p[4] == 0 && p[5] == 0);
    /* 5/6 of relief, nothing to rewrite; four bytes halve it */
    WANT(same_float(coinhamper_cause_aware_score(0, 1, 0, 0, 0, 0, 5.0 / 6, 0), 5.0 / 6));
    WANT(same_float(coinhamper_cause_aware_score(0, 1, 0, 4, 0, 0, 5.0 / 6, 0), 5.0 / 12));

    const uint64_t seven[7] = {1, 3, 1, 1, 1, 3, 0};
    WANT(coinhamper_scheduling_decision(0, 1, 0, picked, 5, candidates, 24, estimates, 36, d, 0) == 101);
    WANT(coinhamper_scheduling_decision(0, 1, 0, seven, 7, candidates, 24, estimates, 36, d, 14) == 101);
    const uint64_t won_twice[6] = {2, 3, 1, 1, 1, 3}, tier_four[6] = {1, 3, 1, 1, 1, 4}, none[6] = {0, 3, 1, 1, 1, 3}, past[6] = {1, UINT64_MAX, 0, 0, 0, 3};
    WANT(coinhamper_scheduling_decision(0, 1, 0, won_twice, 6, candidates, 24, estimates, 36, d, 14) == 101);
    WANT(coinhamper_scheduling_decision(0, 1, 0, tier_four, 6, candidates, 24, estimates, 36, d, 14) == 101);
    WANT(coinhamper_scheduling_decision(0, 1, 0, picked, 6, candidates, 24, estimates, 36, d, 13) == 9 && d[0] == FILLED);
    WANT(coinhamper_scheduling_decision(0, 1, 0, picked, 6, candidates, 24, estimates, 36, d, 15) == 0);
    WANT(!memcmp(d, decision, sizeof decision) && d[14] == FILLED);
    const uint64_t nothing[14] = {0, 0, 4607182418800017408, 0, 2, 3, 4};
    WANT(coinhamper_scheduling_decision(0, 1, 0, none, 6, candidates, 24, estimates, 36, d, 14) == 0 && !memcmp(d, nothing, sizeof nothing));
    WANT(coinhamper_scheduling_decision(0, 1, 0, past, 6, candidates, 24, estimates, 36, d, 14) == 0 && !memcmp(d, nothing, sizeof nothing));
}

static bool log_kept(void) {
    return !memcmp(log_words, log_old, sizeof log_words);
}

static void decisions(void) {
    const size_t all = COINHAMPER_LOG_WORDS;
    uint64_t out[15], bad[14];
    size_t n = 77;
    memcpy(bad, decision, sizeof bad);
    bad[7] = 4;
    WANT(coinhamper_is_decision(decision, 14) == 1 && coinhamper_is_decision(decision, 13) == 0 && coinhamper_is_decision(bad, 14) == 0);
    WANT(coinhamper_is_decision(NULL, 0) == 0);
    WANT(coinhamper_kept_place(0, 4095) == 4095 && coinhamper_kept_place(4095, 1) == 0 && coinhamper_kept_place(UINT64_MAX, UINT64_MAX) == 4094);
    WANT(coinhamper_record_decision(head, 2, log_words, all, bad, 14) == 10 && coinhamper_record_decision(head, 3, log_words, all - 1, bad, 14) == 10);
    const uint64_t four[4] = {0, 0, 0, 0};
    WANT(coinhamper_record_decision(head, 3, log_words, all + 1, bad, 14) == 10 && coinhamper_recent_decisions(four, 4, log_words, all, out, 14) == 10);
    const uint64_t first[3] = {4096, 0, 0}, count[3] = {0, 4097, 0};
    WANT(coinhamper_recent_decisions(first, 3, log_words, all, out, 14) == 10 && coinhamper_recent_decisions(count, 3, log_words, all, out, 14) == 10);
    WANT(coinhamper_fits_length(first, 3, log_words, all, &n) == 10 && n == 77);
    WANT(coinhamper_record_decision(head, 3, log_words, all, bad, 14) == 5 && coinhamper_record_decision(head, 3, log_words, all, decision, 13) == 5);
    WANT(log_kept() && head[0] == 0 && head[1] == 0 && head[2] == 0);
    WANT(coinhamper_recent_decisions(head, COINHAMPER_HEAD_WORDS, log_words, all, NULL, 0) == 0);
    WANT(coinhamper_fits_length(head, 3, log_words, all, &n) == 0 && n == 8640);
    WANT(coinhamper_record_decision(head, 3, log_words, all, decision, 14) == 0 && head[0] == 0 && head[1] == 1 && head[2] == 1);
    uint64_t digest = 0;
    for (size_t i = 0; i < all; i++) digest += (i + 1) * log_words[i];
    WANT(digest == 18355170881286351625u);
    memset(out, 0xee, sizeof out);
    WANT(coinhamper_recent_decisions(head, 3, log_words, all, out, 13) == 9 && out[0] == FILLED);
    WANT(coinhamper_recent_decisions(head, 3, log_words, all, out, 15) == 0);
    WANT(out[0] == 1 && !memcmp(out + 1, decision + 1, 13 * 8) && out[14] == FILLED);
}

static void tables_of_logs(void) {
    const size_t all = COINHAMPER_LOG_WORDS;
    static uint8_t file[COINHAMPER_MOST_FITS_BYTES];
    size_t n = 77;
    memset(file, '.', sizeof file);
    WANT(coinhamper_fits_length(head, 3, log_words, all, &n) == 0 && n == 11520);
    n = 77;
    WANT(coinhamper_write_fits(head, 2, log_words, all, file, 0, &n) == 10 && coinhamper_write_fits(head, 3, log_words, all, file, 11519, &n) == 9);
    WANT(n == 77 && file[0] == '.');
    WANT(coinhamper_write_fits(head, 3, log_words, all, file, sizeof file, &n) == 0 && n == 11520 && file[11520] == '.');
    WANT(!memcmp(file, "SIMPLE  =                    T", 30) && !memcmp(file + 2880, "XTENSION= 'BINTABLE'", 20));
    /* a row: unsigned words less 2^63, floats as they are, the highest byte first */
    for (size_t i = 0; i < 14; i++) {
        uint64_t word = i == 0 ? 1 : decision[i], cell = 0;
        for (size_t k = 0; k < 8; k++) cell = cell << 8 | file[8640 + 8 * i + k];
        WANT(cell == ((i >= 1 && i <= 3) || i >= 11 ? word : word ^ (uint64_t)1 << 63));
    }
    WANT(file[8640 + 112] == 0 && file[11519] == 0);
    const uint64_t full[3] = {4095, 4096, 9};
    WANT(coinhamper_fits_length(full, 3, log_words, all, &n) == 0 && n == COINHAMPER_MOST_FITS_BYTES);
}

static void texts(void) {
    const size_t all = COINHAMPER_LOG_WORDS;
    static const char line[] = "41,0000000000000000,3ff0000000000000,0000000000000000,2,3,4,3,1,0,0,0000000000000000,3FEAAAAAAAAAAAAB,0000000000000000\r\n";
    static const char two_lines[] = "x\n1,2\n";
    static uint8_t ends[4097];
    const uint8_t *good = (const uint8_t *)line, *bad = (const uint8_t *)two_lines;
    uint8_t out[32];
    size_t n = 77;
    memset(ends, '\n', sizeof ends);
    memset(out, '.', sizeof out);
    memcpy(log_old, log_words, sizeof log_words);
    WANT(coinhamper_read_log(ends, 4097, head, 2, log_words, all) == 10 && coinhamper_read_log(ends, 4097, head, 3, log_words, all - 1) == 10);
    uint64_t four[4] = {0, 0, 0, 0};
    WANT(coinhamper_read_log(NULL, 0, four, 4, log_words, all) == 10);
    WANT(coinhamper_read_log(ends, 4097, head, 3, log_words, all) == 4 && coinhamper_read_log(bad, 6, head, 3, log_words, all) == 5);
    WANT(log_kept() && head[0] == 0 && head[1] == 1 && head[2] == 1);
    head[0] = UINT64_MAX; /* what the head was does not matter */
    WANT(coinhamper_read_log(good, sizeof line - 1, head, 3, log_words, all) == 0 && head[0] == 0 && head[1] == 1 && head[2] == 41);
    WANT(log_words[0] == 41 && !memcmp(log_words + 1, decision + 1, 13 * 8) && log_words[14] == log_old[14]);
    WANT(coinhamper_read_log(NULL, 0, head, 3, log_words, all) == 0 && head[0] == 0 && head[1] == 0 && head[2] == 0 && log_words[0] == 41);
    WANT(coinhamper_refused_lines(bad, 6, out, 7, &n) == 9 && n == 77 && out[0] == '.');
    WANT(coinhamper_refused_lines(bad, 6, out, 8, &n) == 0 && n == 8 && !memcmp(out, "1,5\n2,5\n.", 9));
    WANT(coinhamper_refused_lines(ends, 4097, out, 32, &n) == 0 && n == 4 && !memcmp(out, "0,4\n", 4));
    WANT(coinhamper_refused_lines(good, sizeof line - 1, NULL, 0, &n) == 0 && n == 0);

    static const char sample[] = "1000,0,4,0000000000000000,0000000000000000,0\n2000,4,4,0000000000000000,0000000000000000,0\n"
                                 "3000,9007199254740993,4,0000000000000000,0000000000000000,0\n";
    static const char answers[] = "1,0,0,0,20000\n2,0,2,1,5000\n3,2,2,1,5000\n";
    static uint8_t said[64], long_text[65537];
    memset(said, '.', sizeof said);
    n = 77;
    WANT(coinhamper_replay((const uint8_t *)sample, sizeof sample - 1, said, sizeof answers - 2, &n) == 9 && n == 77 && said[0] == '.');
    WANT(coinhamper_replay((const uint8_t *)sample, sizeof sample - 1, said, sizeof said, &n) == 0 && n == sizeof answers - 1);
    WANT(!memcmp(said, answers, sizeof answers - 1) && said[n] == '.');
    WANT(coinhamper_replay(long_text, sizeof long_text, NULL, 0, &n) == 0 && n == 0);
}

static void arithmetic(void) {
    WANT(coinhamper_of_bits(0x3ff8000000000000u) == 1.5 && coinhamper_to_bits(1.5) == 0x3ff8000000000000u && coinhamper_to_bits(-0.0) == (uint64_t)1 << 63);
    WANT(isnan(coinhamper_of_bits(0x7ff0000000000001u)) && coinhamper_to_bits(float_of(0xfff8000000000001u)) == 0x7ff8000000000000u);
    WANT(coinhamper_minimum(1, 0) == 0 && coinhamper_minimum(NAN, 2) == 2 && coinhamper_minimum(2, NAN) == 2 && isnan(coinhamper_minimum(NAN, NAN)));
    WANT(coinhamper_maximum(1, 0) == 1 && coinhamper_maximum(NAN, 2) == 2 && coinhamper_maximum(2, NAN) == 2 && isnan(coinhamper_maximum(NAN, NAN)));
    WANT(same_float(coinhamper_minimum(0.0, -0.0), 0.0) && same_float(coinhamper_minimum(-0.0, 0.0), -0.0));
    WANT(same_float(coinhamper_maximum(0.0, -0.0), 0.0) && same_float(coinhamper_maximum(-0.0, 0.0), -0.0));
    WANT(coinhamper_absolute(-1.5) == 1.5 && same_float(coinhamper_absolute(-0.0), 0.0) && coinhamper_absolute(-INFINITY) == INFINITY);
    WANT(coinhamper_clamp(-3) == 0 && coinhamper_clamp(0.25) == 0.25 && coinhamper_clamp(INFINITY) == 1 && isnan(coinhamper_clamp(NAN)));
    WANT(coinhamper_of_u64(TOP53 + 1) == 9007199254740992.0 && coinhamper_of_u64(TOP53 + 3) == 9007199254740996.0);
    WANT(coinhamper_of_u64(UINT64_MAX) == 18446744073709551616.0);
    WANT(coinhamper_truncate(2.9) == 2 && coinhamper_truncate(-1) == 0 && coinhamper_truncate(1e30) == UINT64_MAX && coinhamper_truncate(NAN) == 0);
    WANT(coinhamper_sqrt(0) == 0 && coinhamper_sqrt(144) == 12 && coinhamper_sqrt(2) == 1.4142135623730951);
    WANT(coinhamper_ln_1p(0) == 0 && fabs(coinhamper_ln_1p(1) - 0.6931471805599453) <= 0x1p-40);
    const uint8_t a[] = {'a', 'b'}, b[] = {'b'}, high[] = {255};
    WANT(coinhamper_compare(a, 1, a, 2) == 0 && coinhamper_compare(a, 2, a, 2) == 1 && coinhamper_compare(b, 1, a, 2) == 2);
    WANT(coinhamper_compare(NULL, 0, NULL, 0) == 1 && coinhamper_compare(NULL, 0, b, 1) == 0 && coinhamper_compare(high, 1, b, 1) == 2);
}

/* Why the caller owes the default floating-point environment: told, not wanted. */
static void environment(void) {
#if defined __x86_64__
    uint64_t plain[STATE_WORDS], up[STATE_WORDS], small[STATE_WORDS], flushed[STATE_WORDS];
    coinhamper_fresh(plain, STATE_WORDS, 0);
    coinhamper_fresh(up, STATE_WORDS, 0);
    coinhamper_fresh(small, STATE_WORDS, 0);
    coinhamper_fresh(flushed, STATE_WORDS, 0);
    coinhamper_observe(plain, STATE_WORDS, 1, 1, 3, 0.1, 0.7, 1);
    fesetround(FE_UPWARD);
    coinhamper_observe(up, STATE_WORDS, 1, 1, 3, 0.1, 0.7, 1);
    fesetround(FE_TONEAREST);
    coinhamper_observe(small, STATE_WORDS, 1, 1, 3, 0.1, 4.0e-320, 1);
    _mm_setcsr(_mm_getcsr() | 0x8040);
    coinhamper_observe(flushed, STATE_WORDS, 1, 1, 3, 0.1, 4.0e-320, 1);
    _mm_setcsr(_mm_getcsr() & ~0x8040u);
    printf("rows: rounding upward changes an answer: %s; flushing subnormals changes one: %s\n", memcmp(plain, up, sizeof up) ? "yes" : "no",
        memcmp(small, flushed, sizeof small) ? "yes" : "no");
#else
    puts("rows: other rounding and flushed subnormals are shown on x86-64 only");
#endif
}

void rows(void) {
    WANT(coinhamper_version() == 1 && coinhamper_state_words() == STATE_WORDS);
    pauses();
    observations();
    engine();
    figures();
    no_states();
    merges();
    decisions();
    tables_of_logs();
    texts();
    arithmetic();
    environment();
}
