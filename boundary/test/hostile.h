/* What the hostile calls share. Each export has a function that makes memory, works out what must be answered, calls, and looks at what was changed. */
#ifndef HOSTILE_H
#define HOSTILE_H
#include "lent.h"
#include "rules.h"

/* Name; the refusals that it may give, each of which must come up, none for a call that answers a number; how often it is tried, beside the others. */
#define EXPORTS \
    EXPORT(version, "", 2) \
    EXPORT(state_words, "", 2) \
    EXPORT(fresh, "0 100", 30) \
    EXPORT(observe, "0 1 2 3 100", 100) \
    EXPORT(observe_engine, "0 1 2 3 100", 100) \
    EXPORT(record_candidate_chosen, "0 100 101", 30) \
    EXPORT(record_trivial_move, "0 3 100", 40) \
    EXPORT(record_outcome, "0 2 3 100", 50) \
    EXPORT(set_focus, "0 100 101", 30) \
    EXPORT(read, "0 9 100", 30) \
    EXPORT(mode, "0 100", 20) \
    EXPORT(snapshot, "0 2 3 9 100", 60) \
    EXPORT(pacing_delay, "0 101", 20) \
    EXPORT(dominant, "", 20) \
    EXPORT(generate_candidates, "0 4 5 6 9 11", 80) \
    EXPORT(estimate_candidates, "0 2 4 5 6 9 11", 80) \
    EXPORT(cause_aware_score, "", 20) \
    EXPORT(pick_best_cause_aware, "0 4 5 7 8 9 101", 80) \
    EXPORT(scheduling_decision, "0 9 101", 40) \
    EXPORT(is_decision, "", 20) \
    EXPORT(kept_place, "", 10) \
    EXPORT(record_decision, "0 5 10", 15) \
    EXPORT(recent_decisions, "0 9 10", 15) \
    EXPORT(fits_length, "0 10", 15) \
    EXPORT(write_fits, "0 9 10", 15) \
    EXPORT(read_log, "0 4 5 10", 15) \
    EXPORT(refused_lines, "0 9", 25) \
    EXPORT(replay, "0 9", 25) \
    EXPORT(of_bits, "", 3) \
    EXPORT(to_bits, "", 3) \
    EXPORT(minimum, "", 3) \
    EXPORT(maximum, "", 3) \
    EXPORT(absolute, "", 3) \
    EXPORT(clamp, "", 3) \
    EXPORT(of_u64, "", 3) \
    EXPORT(truncate, "", 3) \
    EXPORT(sqrt, "", 3) \
    EXPORT(ln_1p, "", 3) \
    EXPORT(compare, "", 9)

#define EXPORT(name, refusals, often) void try_##name(void);
EXPORTS
#undef EXPORT

/* What was answered, beside what should be. */
void judge(uint64_t answer, uint64_t want);
void judge_float(double answer, double want);
/* That nothing but the first `answer` bytes was changed. */
void left(const struct lent *l, size_t answer);
/* Something else that was to be. */
void also(bool so, const char *what);

/* A length that is right, one off, or any. */
size_t odd_length(size_t right);
/* Room for an answer: just enough, a little more, one short, none. */
size_t odd_room(size_t enough);
/* One word of these becomes another. */
void damage(uint64_t *words, size_t n);
/* Words as these, but for a damaged field or length; what is behind them is any. */
struct lent *lend_words(bool writable, const uint64_t *words, size_t n);
struct lent *lend_room(size_t bytes);

/* States for the calls to start from. */
void make_states(void);
#endif
