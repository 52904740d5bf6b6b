/* The calls of libcoinhamper.a, for C and C++ on x86-64 Linux. Built by: rt lib in crates/coinhamper_c
 *
 * Every call answers its refusal, 0 for none, unless its comment says that it answers a number. A refused call changes nothing that it was lent; an
 * accepted one writes its answer to the front of what it was lent for it, and leaves the rest. With several faults the first that the call's comment
 * names is given. Layouts and rules are those of docs/SCOPE.md; floats stand in words as their bits.
 *
 * What the caller owes, and nothing can test:
 * - a pointer is aligned to its type (8 for words and counts) and good for its length, which counts words, or bytes for uint8_t;
 * - what a call writes overlaps nothing else that is lent to it, and no other thread touches any of it meanwhile;
 * - the floating-point environment is the default one: round to nearest, no flush to zero, no denormals as zero;
 * - the stack has 32 KiB left: generation takes the most.
 * NULL goes with a length of 0, and with nothing else. */
#ifndef COINHAMPER_H
#define COINHAMPER_H
#include <stddef.h>
#include <stdint.h>
#ifdef __cplusplus
extern "C" {
#endif

/* What this header was written for: compare it with coinhamper_version() before the first call. */
#define COINHAMPER_VERSION 1

/* The words of a log, and of its head: first, count, sequence, all 0 for an empty log. */
#define COINHAMPER_LOG_WORDS 57344
#define COINHAMPER_HEAD_WORDS 3

/* The words of a record. Those of a state grow with the version: coinhamper_state_words() tells them. */
#define COINHAMPER_TABLE_WORDS 7
#define COINHAMPER_ENTRY_WORDS 2
#define COINHAMPER_CANDIDATE_WORDS 6
#define COINHAMPER_ESTIMATE_WORDS 9
#define COINHAMPER_DECISION_WORDS 14
#define COINHAMPER_READING_WORDS 8
#define COINHAMPER_SNAPSHOT_WORDS 14
#define COINHAMPER_CHOICE_WORDS 6

/* Room that is always enough: words for candidates, bytes for a FITS table and for the answers of a replay. */
#define COINHAMPER_MOST_CANDIDATE_WORDS (145 * COINHAMPER_CANDIDATE_WORDS)
#define COINHAMPER_MOST_FITS_BYTES 469440
#define COINHAMPER_MOST_REPLAY_BYTES 1179648

enum {
    COINHAMPER_NONE = 0,              /* accepted */
    COINHAMPER_BAD_STATE = 1,         /* a streak that the state's mode can't have: the words were altered; start afresh */
    COINHAMPER_TOO_LARGE = 2,         /* a count above 2^53 that is to become a float: no true count; see where it comes from */
    COINHAMPER_COUNTER_FULL = 3,      /* a counter, the sum of probes or an altered time would pass 2^64 - 1: mend the read counters, or start afresh */
    COINHAMPER_TOO_MANY = 4,          /* over 1,024 tables, 16 entries, 145 candidates, 1,024 numbers of one, 4,096 lines of a log's text: lend fewer */
    COINHAMPER_BAD_RECORD = 5,        /* a part record, unpaired buffers, a field out of its range, a bad line: mend what is lent */
    COINHAMPER_BAD_LEVEL = 6,         /* an over-budget level above 2^32 - 2, which has none below it: leave it out */
    COINHAMPER_BAD_VECTOR = 7,        /* a pressure that isn't in 0 to 1: hand over those that coinhamper_read answers */
    COINHAMPER_BAD_ESTIMATE = 8,      /* a relief that isn't in 0 to 1, a rewrite above 2^50, an age above 2^53: estimate anew */
    COINHAMPER_NO_ROOM = 9,           /* a buffer is too short for the answer: lend more */
    COINHAMPER_BAD_LOG = 10,          /* the head isn't 3 words, the words aren't 57,344, first is above 4,095 or count above 4,096: start an empty log */
    COINHAMPER_DUPLICATE_NUMBER = 11, /* two tables have one number, whatever their levels: lend each table once, under a number that no other has */
    COINHAMPER_NOT_A_STATE = 100,     /* the words are no governor of this version: lend coinhamper_state_words() words, made by coinhamper_fresh */
    COINHAMPER_NO_SUCH_CASE = 101     /* a number that stands for no mode, kind, focus or choice: mend the call */
};

/* Answers a number: the version of the library. It counts up whenever a signature, the words of a state or the meaning of a number changes. */
uint64_t coinhamper_version(void);

/* Answers a number: how many words a caller lends for a state. */
size_t coinhamper_state_words(void);

/* The governor. Clocks are nanoseconds; the highest reading that was accepted is kept, and a lower one adds no time. Modes: 0 Balanced, 1 ReadProtect,
 * 2 WriteEmergency. Writes `state`, but where it is const. */

/* 100 by the length alone. Makes a fresh governor, whatever the words were. */
uint64_t coinhamper_fresh(uint64_t *state, size_t state_len, uint64_t clock);

/* 100, 1, 2, 3. */
uint64_t coinhamper_observe(uint64_t *state, size_t state_len, uint64_t clock, uint64_t l0_count, uint64_t l0_write_stall_trigger,
                            double max_level_debt_ratio, double tables_probed_per_get, uint64_t backlog_levels);

/* 100, 1, 2, 3. The five counters are ReadAmpStats, as they stand since the start. */
uint64_t coinhamper_observe_engine(uint64_t *state, size_t state_len, uint64_t clock, uint64_t l0_count, uint64_t l0_write_stall_trigger,
                                   double max_level_debt_ratio, uint64_t backlog_levels, uint64_t gets_total, uint64_t resolved_in_memtable,
                                   uint64_t resolved_in_immutable, uint64_t l0_tables_probed, uint64_t leveled_tables_probed);

/* 100, 101. Kinds: 1 L0, 2 a batch of a level, 3 a move of a level; only a batch is counted. */
uint64_t coinhamper_record_candidate_chosen(uint64_t *state, size_t state_len, uint64_t kind, uint32_t level, uint64_t batch_len);

/* 100, 3. */
uint64_t coinhamper_record_trivial_move(uint64_t *state, size_t state_len, uint64_t bytes_avoided);

/* 100, 2, 3. */
uint64_t coinhamper_record_outcome(uint64_t *state, size_t state_len, uint64_t predicted, uint64_t actual);

/* 100, 101. Flag 1 is a level; flag 0 is none, and then the level is 0. */
uint64_t coinhamper_set_focus(uint64_t *state, size_t state_len, uint64_t focus_flag, uint32_t focus_level, uint32_t focus_streak);

/* 100, 9. Eight words: mode, pressure, the vector's l0, deep debt and read, focus flag, level, streak. */
uint64_t coinhamper_read(const uint64_t *state, size_t state_len, uint64_t *out, size_t out_len);

/* 100. The first of these words alone. */
uint64_t coinhamper_mode(const uint64_t *state, size_t state_len, uint64_t *mode);

/* 100, 2, 3, 9. Fourteen words: mode, pressure, vector, switches, milliseconds in each mode, average batch, moves, bytes avoided, samples, mean
 * error. */
uint64_t coinhamper_snapshot(const uint64_t *state, size_t state_len, uint64_t clock, uint64_t *out, size_t out_len);

/* 101 for the mode. Any pressure, NaN too. */
uint64_t coinhamper_pacing_delay(uint64_t mode, double pressure, uint64_t *nanos);

/* Answers a number: 0 none, 1 L0, 2 deep debt, 3 reads. */
uint64_t coinhamper_dominant(double l0, double deep_debt, double read);

/* The next merge. A table's keys are parts of `keys`; an entry is a level and its budget. */

/* 4, 5, 11, 6, 9. Six words to a candidate, its table numbers in `numbers`; how many of each in the two counts. */
uint64_t coinhamper_generate_candidates(const uint64_t *tables, size_t tables_len, const uint8_t *keys, size_t keys_len, uint64_t l0_compaction_trigger,
                                        const uint64_t *over_budget_levels, size_t over_budget_levels_len, uint64_t *candidates, size_t candidates_len,
                                        uint64_t *numbers, size_t numbers_len, size_t *candidate_count, size_t *number_count);

/* 4, 5, 11, 6, 2, 9. Nine words to each candidate, in order. A candidate may name a number more than once, and it counts each time. */
uint64_t coinhamper_estimate_candidates(const uint64_t *tables, size_t tables_len, uint64_t next_file_number, const uint64_t *over_budget_levels,
                                        size_t over_budget_levels_len, const uint64_t *candidates, size_t candidates_len, const uint64_t *numbers,
                                        size_t numbers_len, uint64_t *estimates, size_t estimates_len);

/* Answers a number: the score of an estimate under a vector. */
double coinhamper_cause_aware_score(double l0, double deep_debt, double read, uint64_t estimated_rewrite_bytes, uint64_t age, double l0_relief,
                                    double debt_relief, double read_relief);

/* 101 for the focus, 4, 5, 7, 8, 9. Six words: 1 and the winner's place or 0 and 0; focus flag, level, streak; tier. */
uint64_t coinhamper_pick_best_cause_aware(double l0, double deep_debt, double read, uint64_t focus_flag, uint32_t focus_level, uint32_t focus_streak,
                                          const uint64_t *candidates, size_t candidates_len, const uint64_t *estimates, size_t estimates_len,
                                          uint64_t *picked, size_t picked_len);

/* 101 for words that are no choice, 9. Fourteen words, with a sequence of 0; a winner past the lists chose nothing. */
uint64_t coinhamper_scheduling_decision(double l0, double deep_debt, double read, const uint64_t *picked, size_t picked_len, const uint64_t *candidates,
                                        size_t candidates_len, const uint64_t *estimates, size_t estimates_len, uint64_t *decision,
                                        size_t decision_len);

/* The log of the last 4,096 decisions: its head beside its words. */

/* Answers a number: 1 where the words are a decision, 0 where they are none. */
uint64_t coinhamper_is_decision(const uint64_t *words, size_t words_len);

/* Answers a number: the place of the k-th kept decision, the oldest being the 0th. Its words begin at 14 times the place. */
uint64_t coinhamper_kept_place(uint64_t first, uint64_t k);

/* 10, 5 for words that are no decision. Writes the head and one decision's words; the log gives the sequence. */
uint64_t coinhamper_record_decision(uint64_t *head, size_t head_len, uint64_t *words, size_t words_len, const uint64_t *decision, size_t decision_len);

/* 10, 9. Fourteen words to each kept decision, oldest first; the head's count says how many. */
uint64_t coinhamper_recent_decisions(const uint64_t *head, size_t head_len, const uint64_t *words, size_t words_len, uint64_t *out, size_t out_len);

/* 10. How many bytes the log has as a FITS table. */
uint64_t coinhamper_fits_length(const uint64_t *head, size_t head_len, const uint64_t *words, size_t words_len, size_t *written);

/* 10, 9. The log as a binary table of the FITS Standard 4.0, oldest first. */
uint64_t coinhamper_write_fits(const uint64_t *head, size_t head_len, const uint64_t *words, size_t words_len, uint8_t *out, size_t out_len,
                               size_t *written);

/* 10, 4, 5. The log that a text is, a line to each decision: head and words, or neither. */
uint64_t coinhamper_read_log(const uint8_t *text, size_t text_len, uint64_t *head, size_t head_len, uint64_t *words, size_t words_len);

/* 9. The refused lines of such a text: number, comma, refusal, LF; "0,4" for a text that is too long. */
uint64_t coinhamper_refused_lines(const uint8_t *text, size_t text_len, uint8_t *out, size_t out_len, size_t *written);

/* 9. The answers to a text of observations, as the program replay prints them; none to more than 65,536 bytes. */
uint64_t coinhamper_replay(const uint8_t *text, size_t text_len, uint8_t *out, size_t out_len, size_t *written);

/* Floats, roots, logarithms and the order of keys. Every call answers a number. */

double coinhamper_of_bits(uint64_t bits);

/* Every NaN has the one pattern 0x7ff8000000000000. */
uint64_t coinhamper_to_bits(double x);

/* With one NaN the other; with two NaNs, or two equal ones, the left one. */
double coinhamper_minimum(double a, double b);
double coinhamper_maximum(double a, double b);
double coinhamper_absolute(double x);

/* To 0 to 1; a NaN stays a NaN. */
double coinhamper_clamp(double x);
double coinhamper_of_u64(uint64_t n);

/* The fraction is cut off, at 0 and 2^64 - 1 it stops, a NaN is 0. */
uint64_t coinhamper_truncate(double x);

/* The root of n as a float. */
double coinhamper_sqrt(uint64_t n);

/* The logarithm of 1 + age, within 2^-40. */
double coinhamper_ln_1p(uint64_t age);

/* 0 less, 1 equal, 2 greater; a prefix is less. */
uint64_t coinhamper_compare(const uint8_t *a, size_t a_len, const uint8_t *b, size_t b_len);

#ifdef __cplusplus
}
#endif
#endif
