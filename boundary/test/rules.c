/* docs/SCOPE.md a second time: refusals, the next mode, the lines of a text. */
#include "rules.h"
#include <math.h>

__extension__ typedef unsigned __int128 wide;
#define MOST32 0xffffffffu

enum { MODE = 1, SMOOTHED = 2, FLAG = 9, LEVEL = 10, STREAKS = 12, TIMES = 15, KEPT_CLOCK = 18, KEPT_PROBES = 19, KEPT_GETS = 20, SWITCHES = 21,
    BATCH_SUM = 22, BATCH_COUNT = 23, SAMPLES = 27 };

bool is_focus(uint64_t flag, uint64_t level) {
    return flag == 0 ? level == 0 : flag == 1 && level <= MOST32;
}

bool is_state(const uint64_t *w, size_t n) {
    if (n != STATE_WORDS || memcmp(w, &(uint64_t){0x436f696e68616d01u}, 8) || w[MODE] > 2 || !is_focus(w[FLAG], w[LEVEL])) return false;
    for (size_t i = 11; i < 15; i++)
        if (w[i] > MOST32) return false;
    return true;
}

/* R3.6 */
bool is_decision(const uint64_t *w, size_t n) {
    if (n != 14 || w[4] > 3 || w[5] > 3 || w[7] > 3 || w[8] > MOST32) return false;
    if (w[7] <= 1) return w[8] == 0 && w[9] == 0;
    return w[7] == 2 || w[9] == 0;
}

bool is_choice(const uint64_t *w, size_t n) {
    return n == 6 && w[0] <= 1 && w[5] <= 3;
}

/* Refusal 1: the own streak of a mode above its top, or another that is not 0. */
static bool sound(const uint64_t *w) {
    static const uint64_t tops[3] = {2, 3, 2};
    for (size_t i = 0; i < 3; i++)
        if (w[STREAKS + i] > (i == w[MODE] ? tops[i] : 0)) return false;
    return true;
}

/* R4.6, R4.10 to R4.12 */
static struct next next_mode(const uint64_t *w, struct sample s) {
    static const uint64_t windows[3] = {3, 4, 3}, follows[3] = {1, 0, 0};
    double smoothed = 0.3 * s.probes + (1.0 - 0.3) * float_of(w[SMOOTHED]);
    double fraction = s.trigger ? (double)s.count / (double)s.trigger : 0;
    uint64_t mode = w[MODE];
    if (mode != 2 && (fraction >= 0.75 || s.ratio >= 3.0)) return (struct next){.mode = 2};
    bool passes = mode == 0 ? smoothed >= 1.6 : mode == 1 ? smoothed <= 1.15 : fraction <= 0.45 && s.ratio <= 1.5;
    uint64_t streak = passes ? w[STREAKS + mode] + 1 : 0;
    struct next n = {.mode = mode};
    if (streak == windows[mode]) n.mode = follows[mode];
    else n.streaks[mode] = streak;
    return n;
}

static uint64_t less(uint64_t a, uint64_t b) {
    return a > b ? a - b : 0;
}

/* R4.17 */
static bool time_full(const uint64_t *w, uint64_t clock) {
    return less(clock, w[KEPT_CLOCK]) > UINT64_MAX - w[TIMES + w[MODE]];
}

static uint64_t counts_rule(const uint64_t *w, struct sample s, struct next *next) {
    *next = next_mode(w, s);
    memcpy(next->times, w + TIMES, sizeof next->times);
    next->times[w[MODE]] += less(s.clock, w[KEPT_CLOCK]);
    if (s.clock > w[KEPT_CLOCK]) next->times[3] = s.clock;
    if (time_full(w, s.clock)) return 3;
    return next->mode != w[MODE] && w[SWITCHES] == UINT64_MAX ? 3 : 0;
}

static bool large(struct sample s) {
    return s.count > TOP53 || s.trigger > TOP53 || s.backlog > TOP53;
}

uint64_t observe_rule(const uint64_t *w, size_t n, struct sample s, struct next *next) {
    if (!is_state(w, n)) return 100;
    if (!sound(w)) return 1;
    return large(s) ? 2 : counts_rule(w, s, next);
}

/* R4.5, R2.4 to R2.6 */
uint64_t engine_rule(const uint64_t *w, size_t n, struct sample s, struct counters c, struct next *next) {
    if (!is_state(w, n)) return 100;
    if (!sound(w)) return 1;
    wide probes = (wide)c.l0_probed + c.leveled_probed;
    wide probed = probes > w[KEPT_PROBES] ? probes - w[KEPT_PROBES] : 0;
    uint64_t gets = less(less(less(c.gets, c.in_memtable), c.in_immutable), w[KEPT_GETS]);
    if (large(s) || probed > TOP53 || gets > TOP53) return 2;
    s.probes = gets ? (double)(uint64_t)probed / (double)gets : float_of(w[SMOOTHED]);
    uint64_t r = counts_rule(w, s, next);
    return probes > UINT64_MAX ? 3 : r;
}

uint64_t snapshot_rule(const uint64_t *w, size_t n, uint64_t clock, size_t room) {
    if (!is_state(w, n)) return 100;
    if (w[BATCH_SUM] > TOP53 || w[BATCH_COUNT] > TOP53 || w[SAMPLES] > TOP53) return 2;
    return time_full(w, clock) ? 3 : room < 14 ? 9 : 0;
}

uint64_t outcome_rule(const uint64_t *w, size_t n, uint64_t predicted, uint64_t actual) {
    if (!is_state(w, n)) return 100;
    return predicted > TOP53 || actual > TOP53 ? 2 : w[SAMPLES] == UINT64_MAX ? 3 : 0;
}

/* R4.2 */
double minimum_rule(double a, double b) {
    return a != a ? (b != b ? a : b) : b < a ? b : a;
}

double maximum_rule(double a, double b) {
    return a != a ? (b != b ? a : b) : b > a ? b : a;
}

double clamp_rule(double x) {
    return x < 0.0 ? 0.0 : x > 1.0 ? 1.0 : x;
}

/* R4.18 */
uint64_t pacing_rule(uint64_t mode, double pressure) {
    double ceiling = mode == 1 ? 40000 : 20000;
    return (uint64_t)maximum_rule(ceiling - clamp_rule(pressure) * (ceiling - 5000), 5000);
}

/* R4.19 */
uint64_t dominant_rule(double l0, double deep_debt, double read) {
    double peak = maximum_rule(maximum_rule(l0, deep_debt), read);
    return peak <= 0.05 ? 0 : l0 >= peak ? 1 : deep_debt >= peak ? 2 : 3;
}

/* R2.8 */
static bool outside(uint64_t start, uint64_t length, size_t size) {
    return start > size || length > size - start;
}

static bool broken_tables(const uint64_t *t, size_t n) {
    for (size_t i = 0; i < n / 7; i++)
        if (t[7 * i + 1] > MOST32 || t[7 * i + 2] > (uint64_t)1 << 40) return true;
    return n % 7 != 0;
}

static bool broken_keys(const uint64_t *t, size_t n, size_t keys) {
    for (size_t i = 0; i < n / 7; i++)
        if (outside(t[7 * i + 3], t[7 * i + 4], keys) || outside(t[7 * i + 5], t[7 * i + 6], keys)) return true;
    return false;
}

/* R13.1 */
static bool number_twice(const uint64_t *t, size_t n) {
    for (size_t i = 0; i < n / 7; i++)
        for (size_t k = 0; k < i; k++)
            if (t[7 * i] == t[7 * k]) return true;
    return false;
}

static bool levels_out(const uint64_t *over, size_t n) {
    for (size_t i = 0; i < n / 2; i++)
        if (over[2 * i] > MOST32 - 1) return true;
    return false;
}

uint64_t generate_rule(const uint64_t *tables, size_t n, size_t keys, const uint64_t *over, size_t over_n) {
    if (n / 7 > 1024 || over_n / 2 > 16) return 4;
    if (broken_tables(tables, n) || broken_keys(tables, n, keys) || over_n % 2) return 5;
    return number_twice(tables, n) ? 11 : levels_out(over, over_n) ? 6 : 0;
}

/* R3.4 */
static bool broken_candidates(const uint64_t *c, size_t n) {
    for (size_t i = 0; i + 6 <= n; i += 6) {
        bool level = c[i] == 1 ? c[i + 1] == 0 : c[i + 1] <= MOST32;
        bool batch = c[i] == 2 ? c[i + 2] >= 1 && c[i + 2] <= 8 : c[i + 2] == 0;
        if (c[i] < 1 || c[i] > 3 || !level || !batch) return true;
    }
    return n % 6 != 0;
}

uint64_t estimate_rule(const uint64_t *tables, size_t n, uint64_t next, const uint64_t *over, size_t over_n, const uint64_t *candidates, size_t candidates_n,
                       size_t numbers_n, size_t room) {
    if (n / 7 > 1024 || over_n / 2 > 16 || candidates_n / 6 > 145) return 4;
    bool out = false;
    for (size_t i = 0; i + 6 <= candidates_n; i += 6) {
        if (candidates[i + 5] > 1024) return 4;
        out |= outside(candidates[i + 4], candidates[i + 5], numbers_n);
    }
    if (broken_tables(tables, n) || over_n % 2 || broken_candidates(candidates, candidates_n) || out) return 5;
    if (number_twice(tables, n)) return 11;
    return levels_out(over, over_n) ? 6 : next > TOP53 ? 2 : room < candidates_n / 6 * 9 ? 9 : 0;
}

static bool in_unit(double x) {
    return x >= 0.0 && x <= 1.0;
}

uint64_t pick_rule(double l0, double deep_debt, double read, uint64_t flag, uint64_t level, const uint64_t *candidates, size_t n, const uint64_t *estimates,
                   size_t estimates_n, size_t room) {
    if (!is_focus(flag, level)) return 101;
    if (n / 6 > 145) return 4;
    if (broken_candidates(candidates, n) || estimates_n % 9 || n / 6 != estimates_n / 9) return 5;
    if (!in_unit(l0) || !in_unit(deep_debt) || !in_unit(read)) return 7;
    for (const uint64_t *e = estimates; e < estimates + estimates_n; e += 9) {
        if (e[2] > (uint64_t)1 << 50 || e[5] > TOP53) return 8;
        if (!in_unit(float_of(e[6])) || !in_unit(float_of(e[7])) || !in_unit(float_of(e[8]))) return 8;
    }
    return room < 6 ? 9 : 0;
}

uint64_t log_rule(const uint64_t *head, size_t head_n, size_t words_n) {
    return head_n != 3 || words_n != COINHAMPER_LOG_WORDS || head[0] > 4095 || head[1] > 4096 ? 10 : 0;
}

/* R11.1 */
size_t fits_rule(uint64_t count) {
    return 8640 + (112 * count + 2879) / 2880 * 2880;
}

/* R7.2: the length of a line, without its end; `next` gets where the following one begins. */
static size_t line_at(const uint8_t *text, size_t n, size_t from, size_t *next) {
    size_t end = from;
    while (end < n && text[end] != '\n') end++;
    *next = end < n ? end + 1 : n;
    return end - from - (end < n && end > from && text[end - 1] == '\r');
}

size_t lines_of(const uint8_t *text, size_t n) {
    size_t count = 0;
    for (size_t from = 0; from < n; count++) line_at(text, n, from, &from);
    return count;
}

static bool decimal(const uint8_t *s, size_t n, uint64_t *word) {
    wide sum = 0;
    for (size_t i = 0; i < n; i++) {
        if (s[i] < '0' || s[i] > '9' || i == 20) return false;
        sum = sum * 10 + (s[i] - '0');
    }
    *word = (uint64_t)sum;
    return n > 0 && sum <= UINT64_MAX && (n == 1 || s[0] != '0');
}

static bool hex(const uint8_t *s, size_t n, uint64_t *word) {
    *word = 0;
    for (size_t i = 0; i < n; i++) {
        const char *digits = "0123456789abcdefABCDEF", *d = s[i] ? strchr(digits, s[i]) : NULL;
        if (!d) return false;
        size_t v = (size_t)(d - digits);
        *word = *word << 4 | (v < 16 ? v : v - 6);
    }
    return n == 16;
}

/* R11.7 */
static bool log_line(const uint8_t *s, size_t n, uint64_t *words) {
    size_t from = 0;
    for (size_t k = 0; k < 14; k++) {
        size_t end = from;
        while (end < n && s[end] != ',') end++;
        bool is_float = (k >= 1 && k <= 3) || k >= 11;
        if (!(is_float ? hex : decimal)(s + from, end - from, words + k) || (k < 13 ? end == n : end < n)) return false;
        from = end + 1;
    }
    return true;
}

struct read_text log_text_rule(const uint8_t *text, size_t n, uint64_t *words, uint8_t *report) {
    struct read_text t = {0, lines_of(text, n), 0};
    if (t.lines > 4096 || n > 1110016) {
        memcpy(report, "0,4\n", 4);
        return (struct read_text){4, t.lines, 4};
    }
    size_t line = 0;
    for (size_t from = 0; from < n; line++) {
        size_t start = from, length = line_at(text, n, from, &from);
        if (log_line(text + start, length, words + 14 * line)) continue;
        t.refusal = 5;
        t.report += (size_t)sprintf((char *)report + t.report, "%zu,5\n", line + 1);
    }
    return t;
}
