/* The calls of governed.rt, on hostile words; and a long run on one state. */
#include "hostile.h"

/* States that a run of calls has made. */
#define STATES 32
static uint64_t states[STATES][STATE_WORDS];
static size_t state_now;

void make_states(void) {
    for (size_t i = 0; i < STATES; i++) coinhamper_fresh(states[i], STATE_WORDS, any() >> below(64));
}

static struct lent *lend_state(bool writable) {
    state_now = below(STATES);
    struct lent *l = lend_words(writable, states[state_now], STATE_WORDS);
    if (once_in(40) && l->bytes == 8 * STATE_WORDS)
        for (size_t i = once_in(2); i < STATE_WORDS; i++) FILL(l)[i] = odd_number();
    if (once_in(12) && l->bytes == 8 * STATE_WORDS) FILL(l)[15 + below(13)] = UINT64_MAX - below(2);
    return l;
}

/* An accepted state is used again, for a while. */
static void state_left(const struct lent *state, uint64_t refusal) {
    left(state, refusal ? 0 : state->bytes);
    if (refusal) return;
    bool good = is_state(state->fill, state->bytes / 8);
    also(good, "words were left that are no state");
    if (good) memcpy(states[state_now], state->fill, sizeof states[0]);
    if (once_in(30)) coinhamper_fresh(states[state_now], STATE_WORDS, any() >> below(64));
}

static struct sample odd_sample(const struct lent *state) {
    struct sample s;
    uint64_t kept = state->bytes > 18 * 8 ? FILL(state)[18] : 0;
    s.clock = once_in(8) ? odd_number() : kept + below(1000000);
    s.trigger = once_in(12) ? odd_number() : below(9);
    s.count = once_in(12) ? odd_number() : below(9);
    s.backlog = once_in(12) ? odd_number() : below(5);
    s.ratio = odd_float();
    s.probes = odd_float();
    return s;
}

void try_fresh(void) {
    struct lent *state = lend_state(true);
    uint64_t clock = odd_number();
    lent_keep();
    uint64_t r = coinhamper_fresh(WORDS(state), clock);
    judge(r, state->bytes == 8 * STATE_WORDS ? 0 : 100);
    state_left(state, r);
}

static bool left_as(const uint64_t *state, const struct next *next) {
    return state[1] == next->mode && !memcmp(state + 12, next->streaks, sizeof next->streaks) && !memcmp(state + 15, next->times, sizeof next->times);
}

void try_observe(void) {
    struct lent *state = lend_state(true);
    struct sample s = odd_sample(state);
    struct next next;
    uint64_t want = observe_rule(state->fill, state->bytes / 8, s, &next);
    lent_keep();
    uint64_t r = coinhamper_observe(WORDS(state), s.clock, s.count, s.trigger, s.ratio, s.probes, s.backlog);
    judge(r, want);
    if (r == 0) WANT(left_as(FILL(state), &next));
    state_left(state, r);
}

void try_observe_engine(void) {
    struct lent *state = lend_state(true);
    struct sample s = odd_sample(state);
    uint64_t *kept = state->bytes > 20 * 8 ? FILL(state) + 19 : (uint64_t[]){0, 0};
    struct counters c = {kept[1] + below(20), below(3), below(3), kept[0] + below(30), below(30)};
    if (once_in(6)) damage((uint64_t *)&c, 5);
    struct next next;
    uint64_t want = engine_rule(state->fill, state->bytes / 8, s, c, &next);
    lent_keep();
    uint64_t r = coinhamper_observe_engine(WORDS(state), s.clock, s.count, s.trigger, s.ratio, s.backlog, c.gets, c.in_memtable, c.in_immutable, c.l0_probed,
        c.leveled_probed);
    judge(r, want);
    if (r == 0) WANT(left_as(FILL(state), &next));
    state_left(state, r);
}

void try_record_candidate_chosen(void) {
    struct lent *state = lend_state(true);
    uint64_t kind = once_in(4) ? odd_number() : 1 + below(3), length = odd_number();
    uint64_t want = !is_state(state->fill, state->bytes / 8) ? 100 : kind < 1 || kind > 3 ? 101 : 0;
    lent_keep();
    uint64_t r = coinhamper_record_candidate_chosen(WORDS(state), kind, (uint32_t)odd_number(), length);
    judge(r, want);
    state_left(state, r);
}

void try_record_trivial_move(void) {
    struct lent *state = lend_state(true);
    uint64_t want = !is_state(state->fill, state->bytes / 8) ? 100 : FILL(state)[24] == UINT64_MAX ? 3 : 0;
    lent_keep();
    uint64_t r = coinhamper_record_trivial_move(WORDS(state), odd_number());
    judge(r, want);
    state_left(state, r);
}

void try_record_outcome(void) {
    struct lent *state = lend_state(true);
    uint64_t predicted = odd_number(), actual = odd_number(), want = outcome_rule(state->fill, state->bytes / 8, predicted, actual);
    lent_keep();
    uint64_t r = coinhamper_record_outcome(WORDS(state), predicted, actual);
    judge(r, want);
    state_left(state, r);
}

void try_set_focus(void) {
    struct lent *state = lend_state(true);
    uint64_t flag = once_in(4) ? odd_number() : below(2);
    uint32_t level = once_in(2) ? 0 : (uint32_t)odd_number(), streak = (uint32_t)odd_number();
    uint64_t want = !is_state(state->fill, state->bytes / 8) ? 100 : is_focus(flag, level) ? 0 : 101;
    lent_keep();
    uint64_t r = coinhamper_set_focus(WORDS(state), flag, level, streak);
    judge(r, want);
    if (r == 0) WANT(FILL(state)[9] == flag && FILL(state)[10] == level && FILL(state)[11] == streak);
    state_left(state, r);
}

void try_read(void) {
    struct lent *state = lend_state(false), *out = lend_room(8 * odd_room(8));
    lent_keep();
    uint64_t r = coinhamper_read(WORDS(state), WORDS(out));
    judge(r, !is_state(state->fill, state->bytes / 8) ? 100 : out->bytes < 64 ? 9 : 0);
    left(out, r ? 0 : 64);
}

void try_mode(void) {
    struct lent *state = lend_state(false), *mode = lend_room(8);
    lent_keep();
    uint64_t r = coinhamper_mode(WORDS(state), mode->at);
    judge(r, is_state(state->fill, state->bytes / 8) ? 0 : 100);
    left(mode, r ? 0 : 8);
    if (r == 0) WANT(FILL(mode)[0] == FILL(state)[1]);
}

void try_snapshot(void) {
    struct lent *state = lend_state(false), *out = lend_room(8 * odd_room(14));
    uint64_t clock = odd_number();
    lent_keep();
    uint64_t r = coinhamper_snapshot(WORDS(state), clock, WORDS(out));
    judge(r, snapshot_rule(state->fill, state->bytes / 8, clock, out->bytes / 8));
    left(out, r ? 0 : 14 * 8);
}

void try_pacing_delay(void) {
    struct lent *nanos = lend_room(8);
    uint64_t mode = once_in(3) ? odd_number() : below(3);
    double pressure = odd_float();
    lent_keep();
    uint64_t r = coinhamper_pacing_delay(mode, pressure, nanos->at);
    judge(r, mode > 2 ? 101 : 0);
    left(nanos, r ? 0 : 8);
    if (r == 0) WANT(FILL(nanos)[0] == pacing_rule(mode, pressure));
}

void try_dominant(void) {
    double a = odd_float(), b = odd_float(), c = odd_float();
    judge(coinhamper_dominant(a, b, c) == dominant_rule(a, b, c) ? 0 : 1, 0);
}

/* From a fresh governor no run of calls leaves words that are no state, or a state that a call refuses by 1 or by 3, and the times add up to the highest
   reading minus the start. */
void state_run(unsigned long calls) {
    uint64_t state[STATE_WORDS], out[14], accepted = 0, switches = 0, start = any() >> below(64);
    WANT(coinhamper_fresh(state, STATE_WORDS, start) == 0);
    for (unsigned long i = 0; i < calls; i++) {
        uint64_t r = 0, mode = state[1], kept = state[18];
        uint64_t clock = once_in(1000) ? any() >> (8 + below(56)) : once_in(8) ? kept / (1 + below(3)) : kept + below(1000000);
        /* busy, then many reads, then calm */
        unsigned phase = i / 40 % 3;
        uint64_t a = once_in(50) ? odd_number() : below(phase ? 2 : 9), b = once_in(50) ? odd_number() : 8, c = once_in(20) ? odd_number() : below(4);
        double ratio = once_in(50) ? odd_float() : unit_float() * (phase ? 1.5 : 4), probes = once_in(3000) ? odd_float() : phase == 1 ? 4 : unit_float();
        if (once_in(10000)) r = coinhamper_fresh(state, STATE_WORDS, start = kept = clock); /* a NaN stays in the smoothed probes */
        else switch (below(8)) {
        case 0: r = coinhamper_record_candidate_chosen(state, STATE_WORDS, c, (uint32_t)any(), odd_number()); break;
        case 1: r = coinhamper_record_trivial_move(state, STATE_WORDS, odd_number()); break;
        case 2: r = coinhamper_record_outcome(state, STATE_WORDS, a, b); break;
        case 3: r = coinhamper_set_focus(state, STATE_WORDS, below(3), (uint32_t)a, (uint32_t)odd_number()); break;
        case 4:
            r = coinhamper_observe_engine(state, STATE_WORDS, clock, a, b, ratio, c, state[20] + below(9), below(3), below(3), state[19] + below(30), 0);
            break;
        case 5: r = coinhamper_snapshot(state, STATE_WORDS, clock, out, 14); break;
        default: r = coinhamper_observe(state, STATE_WORDS, clock, a, b, ratio, probes, c); break;
        }
        accepted += r == 0;
        switches += state[1] != mode;
        WANT(r != 1 && r != 3 && r != 100 && is_state(state, STATE_WORDS) && coinhamper_read(state, STATE_WORDS, out, 8) == 0);
        WANT(state[15] + state[16] + state[17] == state[18] - start && state[18] >= start && state[18] >= kept);
        WANT(coinhamper_mode(state, STATE_WORDS, &mode) == 0 && mode == out[0]);
    }
    printf("run: %lu calls on one state, %llu accepted, %llu switches\n", calls, (unsigned long long)accepted, (unsigned long long)switches);
    WANT(accepted > 0);
}
