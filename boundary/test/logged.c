/* The calls of logged.rt, on hostile words and texts. */
#include "hostile.h"

static uint64_t made[14];

static void make_decision(void) {
    uint64_t kind = below(4);
    const uint64_t d[14] = {odd_number(), odd_bits(), odd_bits(), odd_bits(), below(4), below(4), odd_number(), kind, kind < 2 ? 0 : odd_number() & 0xffffffff,
        kind == 2 ? odd_number() : 0, odd_number(), odd_bits(), odd_bits(), odd_bits()};
    memcpy(made, d, sizeof d);
}

void try_is_decision(void) {
    make_decision();
    struct lent *d = lend_words(false, made, 14);
    judge(coinhamper_is_decision(WORDS(d)) == is_decision(d->fill, d->bytes / 8) ? 0 : 1, 0);
}

void try_kept_place(void) {
    uint64_t first = odd_number(), k = odd_number();
    judge(coinhamper_kept_place(first, k) == (first + k) % 4096 ? 0 : 1, 0);
}

static struct lent *lend_head(bool writable) {
    const uint64_t head[3] = {once_in(10) ? 4094 + below(3) : below(4096), once_in(20) ? 4095 + below(3) : below(30), odd_number()};
    return lend_words(writable, head, 3);
}

static uint64_t log_fault(const struct lent *head, const struct lent *words) {
    return log_rule(head->fill, head->bytes / 8, words->bytes / 8);
}

void try_record_decision(void) {
    make_decision();
    struct lent *head = lend_head(true), *words = lend_log(true, odd_length(COINHAMPER_LOG_WORDS)), *d = lend_words(false, made, 14);
    uint64_t want = log_fault(head, words), old[3] = {0, 0, 0};
    if (want == 0 && !is_decision(d->fill, d->bytes / 8)) want = 5;
    memcpy(old, head->fill, head->bytes < sizeof old ? head->bytes : sizeof old);
    lent_keep();
    uint64_t r = coinhamper_record_decision(WORDS(head), WORDS(words), WORDS(d));
    judge(r, want);
    left(head, r ? 0 : 24);
    uint64_t at = 14 * ((old[0] + old[1]) % 4096), full = old[1] == 4096, *got = FILL(words) + at;
    if (r == 0) lent_allow(words, 8 * at, 14 * 8);
    left(words, 0);
    if (r) return;
    /* R6.4, R6.5 */
    WANT(FILL(head)[0] == (old[0] + full) % 4096 && FILL(head)[1] == old[1] + !full && FILL(head)[2] == old[2] + (old[2] != UINT64_MAX));
    WANT(got[0] == FILL(head)[2]);
    for (size_t i = 1; i < 14; i++) {
        uint64_t word = FILL(d)[i];
        WANT(got[i] == (i <= 3 || i >= 11 ? bits_of(float_of(word)) : word));
    }
}

void try_recent_decisions(void) {
    struct lent *head = lend_head(false), *words = lend_log(false, odd_length(COINHAMPER_LOG_WORDS));
    uint64_t want = log_fault(head, words), count = want ? 3 : FILL(head)[1];
    struct lent *out = lend_room(8 * odd_room(14 * count));
    if (want == 0 && out->bytes < 14 * 8 * count) want = 9;
    lent_keep();
    uint64_t r = coinhamper_recent_decisions(WORDS(head), WORDS(words), WORDS(out));
    judge(r, want);
    left(out, r ? 0 : 14 * 8 * count);
    for (uint64_t k = 0; r == 0 && k < count; k++) WANT(!memcmp(FILL(out) + 14 * k, FILL(words) + 14 * ((FILL(head)[0] + k) % 4096), 14 * 8));
}

void try_fits_length(void) {
    struct lent *head = lend_head(false), *words = lend_log(false, odd_length(COINHAMPER_LOG_WORDS)), *written = lend_room(8);
    lent_keep();
    uint64_t r = coinhamper_fits_length(WORDS(head), WORDS(words), written->at);
    judge(r, log_fault(head, words));
    left(written, r ? 0 : 8);
    if (r == 0) WANT(FILL(written)[0] == fits_rule(FILL(head)[1]));
}

void try_write_fits(void) {
    struct lent *head = lend_head(false), *words = lend_log(false, odd_length(COINHAMPER_LOG_WORDS));
    uint64_t want = log_fault(head, words);
    size_t answer = want ? 99 : fits_rule(FILL(head)[1]);
    struct lent *out = lend_room(odd_room(answer)), *written = lend_room(8);
    if (want == 0 && out->bytes < answer) want = 9;
    lent_keep();
    uint64_t r = coinhamper_write_fits(WORDS(head), WORDS(words), BYTES(out), written->at);
    judge(r, want);
    left(out, r ? 0 : answer);
    left(written, r ? 0 : 8);
    if (r == 0) WANT(FILL(written)[0] == answer && !memcmp(out->fill, "SIMPLE  =", 9));
}

/* A text of lines, with now and then a byte damaged. */
static char text[1200000];
static uint64_t text_words[COINHAMPER_LOG_WORDS];
static uint8_t report[65536];

static struct lent *lend_text(size_t n) {
    if (once_in(20)) n += below(3);
    if (once_in(30)) n = below(n + 1);
    struct lent *l = lend(false, n);
    memcpy(l->fill, text, n);
    if (n && once_in(4)) ((uint8_t *)l->fill)[below(n)] = (uint8_t)(once_in(2) ? any() : (uint64_t)"0,\n\r 9fG"[below(8)]);
    return l;
}

static const char *line_end(void) {
    return once_in(3) ? "\r\n" : "\n";
}

static struct lent *lend_log_text(void) {
    size_t n = 0, lines = once_in(300) ? 4095 + below(3) : below(6);
    if (once_in(30)) {
        memset(text, '\n', 4100);
        return lend_text(4095 + below(3));
    }
    if (once_in(2000)) {
        memset(text, '7', sizeof text);
        return lend_text(1110015 + below(3));
    }
    for (size_t i = 0; i < lines; i++) {
        for (size_t k = 0; k < 14; k++) {
            bool is_float = (k >= 1 && k <= 3) || k >= 11;
            const char *form = is_float ? (once_in(2) ? "%016llx%s" : "%016llX%s") : "%llu%s";
            n += (size_t)sprintf(text + n, form, (unsigned long long)(is_float ? odd_bits() : odd_number()), k < 13 ? "," : line_end());
        }
    }
    return lend_text(n);
}

void try_read_log(void) {
    struct lent *l = lend_log_text(), *head = lend_head(true), *words = lend_log(true, odd_length(COINHAMPER_LOG_WORDS));
    struct read_text t = log_text_rule(l->fill, l->bytes, text_words, report);
    lent_keep();
    uint64_t r = coinhamper_read_log(BYTES(l), WORDS(head), WORDS(words));
    judge(r, head->bytes != 24 || words->bytes != 8 * COINHAMPER_LOG_WORDS ? 10 : t.refusal);
    left(head, r ? 0 : 24);
    left(words, r ? 0 : 14 * 8 * t.lines);
    if (r) return;
    WANT(FILL(head)[0] == 0 && FILL(head)[1] == t.lines && FILL(head)[2] == (t.lines ? text_words[14 * (t.lines - 1)] : 0));
    WANT(!memcmp(words->fill, text_words, 14 * 8 * t.lines));
}

void try_refused_lines(void) {
    struct lent *l = lend_log_text();
    struct read_text t = log_text_rule(l->fill, l->bytes, text_words, report);
    struct lent *out = lend_room(odd_room(t.report)), *written = lend_room(8);
    lent_keep();
    uint64_t r = coinhamper_refused_lines(BYTES(l), BYTES(out), written->at);
    judge(r, out->bytes < t.report ? 9 : 0);
    left(out, r ? 0 : t.report);
    left(written, r ? 0 : 8);
    if (r == 0) WANT(FILL(written)[0] == t.report && !memcmp(out->fill, report, t.report));
}

void try_replay(void) {
    static uint8_t all[COINHAMPER_MOST_REPLAY_BYTES];
    size_t n = 0, lines = below(8), answer = 0;
    for (size_t i = 0; i < lines; i++)
        n += (size_t)sprintf(text + n, "%llu,%llu,%llu,%016llx,%016llX,%llu%s", (unsigned long long)odd_number(), (unsigned long long)below(9),
            (unsigned long long)(once_in(9) ? odd_number() : below(9)), (unsigned long long)odd_bits(), (unsigned long long)odd_bits(),
            (unsigned long long)below(4), line_end());
    if (once_in(3000)) memset(text, '\n', n = 65534 + below(4));
    struct lent *l = lend_text(n);
    /* with room enough it is accepted, and says how long the answer is */
    WANT(coinhamper_replay(BYTES(l), all, sizeof all, &answer) == 0);
    struct lent *out = lend_room(odd_room(answer)), *written = lend_room(8);
    lent_keep();
    uint64_t r = coinhamper_replay(BYTES(l), BYTES(out), written->at);
    judge(r, out->bytes < answer ? 9 : 0);
    left(out, r ? 0 : answer);
    left(written, r ? 0 : 8);
    if (r) return;
    size_t ends = 0;
    for (size_t i = 0; i < answer; i++) ends += ((uint8_t *)out->fill)[i] == '\n';
    WANT(FILL(written)[0] == answer && !memcmp(out->fill, all, answer));
    WANT(ends == (l->bytes > 65536 ? 0 : lines_of(l->fill, l->bytes)) && answer <= 18 * ends);
}
