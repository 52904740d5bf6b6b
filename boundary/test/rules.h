/* What a call must answer to any words, worked out from docs/SCOPE.md a second time. Each answers a refusal, 0 for none. */
#ifndef RULES_H
#define RULES_H
#include "test.h"

bool is_state(const uint64_t *w, size_t n);
bool is_focus(uint64_t flag, uint64_t level);
bool is_decision(const uint64_t *w, size_t n);
bool is_choice(const uint64_t *w, size_t n);

/* What a sample says; the probes per get are smoothed here. */
struct sample {
    uint64_t clock, count, trigger;
    double ratio, probes;
    uint64_t backlog;
};
struct counters {
    uint64_t gets, in_memtable, in_immutable, l0_probed, leveled_probed;
};
/* After an accepted observation: the mode; then words 12 to 18, the streaks, the times and the kept reading. */
struct next {
    uint64_t mode, streaks[3], times[4];
};
uint64_t observe_rule(const uint64_t *w, size_t n, struct sample s, struct next *next);
uint64_t engine_rule(const uint64_t *w, size_t n, struct sample s, struct counters c, struct next *next);
uint64_t snapshot_rule(const uint64_t *w, size_t n, uint64_t clock, size_t room);
uint64_t outcome_rule(const uint64_t *w, size_t n, uint64_t predicted, uint64_t actual);
uint64_t pacing_rule(uint64_t mode, double pressure);
uint64_t dominant_rule(double l0, double deep_debt, double read);
double minimum_rule(double a, double b);
double maximum_rule(double a, double b);
double clamp_rule(double x);

/* But for 9. Generation has key bytes and estimation has none. */
uint64_t generate_rule(const uint64_t *tables, size_t n, size_t keys, const uint64_t *over, size_t over_n);
uint64_t estimate_rule(const uint64_t *tables, size_t n, uint64_t next, const uint64_t *over, size_t over_n, const uint64_t *candidates, size_t candidates_n,
                       size_t numbers_n, size_t room);
uint64_t pick_rule(double l0, double deep_debt, double read, uint64_t flag, uint64_t level, const uint64_t *candidates, size_t n, const uint64_t *estimates,
                   size_t estimates_n, size_t room);

uint64_t log_rule(const uint64_t *head, size_t head_n, size_t words_n);
size_t fits_rule(uint64_t count);

/* The lines of a log's text: the refusal of all; their words, if they have a place to go; and the report of the refused ones. */
struct read_text {
    uint64_t refusal;
    size_t lines;
    size_t report;
};
struct read_text log_text_rule(const uint8_t *text, size_t n, uint64_t *words, uint8_t *report);
/* How many lines a text has (R7.2). */
size_t lines_of(const uint8_t *text, size_t n);
#endif
