/* The frozen rows of crates/rows (docs/ROWS.md) through the library: each question to a call that is exported is asked, and its answer compared as text. */
#include "test.h"

#define MOST_WORDS 140000
#define MOST_TEXT 4000000

/* An argument: a number is one word; a list is its words, and its bytes where a call takes bytes. */
struct argument {
    bool list;
    size_t count;
    uint64_t *words;
    uint8_t *bytes;
};
static struct argument arg[64];
static uint64_t words[MOST_WORDS];
static uint8_t bytes[MOST_WORDS];
static size_t args;

static char answer[MOST_TEXT];
static size_t answered;

static bool split(char *text) {
    size_t used = 0;
    args = 0;
    while (*text == ' ') {
        if (args == 64) return false;
        struct argument *a = &arg[args++];
        text++;
        a->list = *text == '[';
        a->words = words + used;
        a->bytes = bytes + used;
        if (a->list) text++;
        while (*text >= '0' && *text <= '9') {
            words[used] = strtoull(text, &text, 10);
            bytes[used] = (uint8_t)words[used];
            used++;
            if (a->list && *text == ' ') text++;
            else if (!a->list) break;
        }
        a->count = (size_t)(words + used - a->words);
        if (a->list && *text++ != ']') return false;
    }
    return *text == 0;
}

static void put(const char *what) {
    answered += (size_t)sprintf(answer + answered, "%s%s", answered ? " " : "", what);
}

static void number(uint64_t n) {
    char digits[24];
    sprintf(digits, "%llu", (unsigned long long)n);
    put(digits);
}

static void put_float(double x) {
    number(bits_of(x));
}

static void list(const uint64_t *from, size_t n) {
    put("[");
    for (size_t i = 0; i < n; i++) answered += (size_t)sprintf(answer + answered, "%s%llu", i ? " " : "", (unsigned long long)from[i]);
    answer[answered++] = ']';
    answer[answered] = 0;
}

static void byte_list(const uint8_t *from, size_t n) {
    put("[");
    for (size_t i = 0; i < n; i++) answered += (size_t)sprintf(answer + answered, "%s%u", i ? " " : "", from[i]);
    answer[answered++] = ']';
    answer[answered] = 0;
}

/* Arguments by place. */
#define N(i) (arg[i].words[0])
#define F(i) float_of(arg[i].words[0])
#define L(i) arg[i].words, arg[i].count
#define B(i) arg[i].bytes, arg[i].count

/* A row's state is the library's without the tag. */
static uint64_t state[STATE_WORDS];

static void state_in(size_t i) {
    coinhamper_fresh(state, STATE_WORDS, 0);
    memcpy(state + 1, arg[i].words, 27 * 8);
}

static void state_out(void) {
    list(state + 1, 27);
}

/* A state that comes back after a refusal, or without one. */
static void state_told(uint64_t refusal) {
    number(refusal);
    state_out();
}

static bool governed(const char *name) {
    uint64_t out[14], n;
    if (!strcmp(name, "pacing_delay")) {
        if (coinhamper_pacing_delay(N(0), F(1), &n) == 0) number(n);
    } else if (!strcmp(name, "dominant")) {
        number(coinhamper_dominant(F(0), F(1), F(2)));
    } else if (!strcmp(name, "fresh")) {
        coinhamper_fresh(state, STATE_WORDS, N(0));
        state_out();
    } else if (!strcmp(name, "mode")) {
        state_in(0);
        if (coinhamper_mode(state, STATE_WORDS, &n) == 0) number(n);
    } else if (!strcmp(name, "pressure") || !strcmp(name, "pressure_vector") || !strcmp(name, "focus")) {
        state_in(0);
        coinhamper_read(state, STATE_WORDS, out, 8);
        size_t from = name[0] == 'f' ? 5 : name[8] ? 2 : 1;
        for (size_t i = 0; i < (from == 1 ? 1 : 3); i++) number(out[from + i]);
    } else if (!strcmp(name, "set_focus")) {
        state_in(0);
        if (coinhamper_set_focus(state, STATE_WORDS, N(1), (uint32_t)N(2), (uint32_t)N(3)) == 0) state_out();
    } else if (!strcmp(name, "observe")) {
        state_in(0);
        state_told(coinhamper_observe(state, STATE_WORDS, N(1), N(2), N(3), F(4), F(5), N(6)));
    } else if (!strcmp(name, "observe_engine")) {
        state_in(0);
        state_told(coinhamper_observe_engine(state, STATE_WORDS, N(1), N(2), N(3), F(4), N(5), N(6), N(7), N(8), N(9), N(10)));
    } else if (!strcmp(name, "record_candidate_chosen")) {
        state_in(0);
        if (coinhamper_record_candidate_chosen(state, STATE_WORDS, N(1), (uint32_t)N(2), N(3)) == 0) state_out();
    } else if (!strcmp(name, "record_trivial_move") || !strcmp(name, "with_trivial_move")) {
        state_in(0);
        state_told(coinhamper_record_trivial_move(state, STATE_WORDS, N(1)));
    } else if (!strcmp(name, "record_outcome") || !strcmp(name, "with_outcome")) {
        state_in(0);
        state_told(coinhamper_record_outcome(state, STATE_WORDS, N(1), N(2)));
    } else if (!strcmp(name, "snapshot")) {
        state_in(0);
        n = coinhamper_snapshot(state, STATE_WORDS, N(1), out, 14);
        number(n);
        list(out, n ? 0 : 14);
    } else {
        return false;
    }
    return true;
}

static bool merged(const char *name) {
    if (!strcmp(name, "generate_candidates")) {
        size_t c = 0, m = 0;
        number(coinhamper_generate_candidates(L(0), B(1), N(2), L(3), L(4), L(5), &c, &m));
        number(c);
        number(m);
        list(L(4));
        list(L(5));
    } else if (!strcmp(name, "estimate_candidates")) {
        uint64_t r = coinhamper_estimate_candidates(L(0), N(1), L(2), L(3), L(4), L(5));
        number(r);
        number(r ? 0 : arg[3].count / 6);
        list(L(5));
    } else if (!strcmp(name, "cause_aware_score")) {
        put_float(coinhamper_cause_aware_score(F(0), F(1), F(2), N(5), N(8), F(9), F(10), F(11)));
    } else if (!strcmp(name, "pick_best_cause_aware")) {
        uint64_t six[6] = {0, 0, N(3), N(4), N(5), 0}; /* beside a refusal the old focus comes back */
        number(coinhamper_pick_best_cause_aware(F(0), F(1), F(2), N(3), (uint32_t)N(4), (uint32_t)N(5), L(6), L(7), six, 6));
        for (size_t i = 0; i < 6; i++) number(six[i]);
    } else if (!strcmp(name, "scheduling_decision")) {
        uint64_t six[6], out[14];
        for (size_t i = 0; i < 6; i++) six[i] = N(4 + i);
        if (coinhamper_scheduling_decision(F(0), F(1), F(2), six, 6, L(10), L(11), out, 14) == 0) list(out, 14);
    } else {
        return false;
    }
    return true;
}

/* A log's words by a seed, and what became of them. */
static uint64_t log_words[COINHAMPER_LOG_WORDS + 1], recent[COINHAMPER_LOG_WORDS + 1];
static uint8_t room[COINHAMPER_MOST_REPLAY_BYTES], filled[1110017];

static void seeded(uint64_t *to, uint64_t n, uint64_t by) {
    for (uint64_t i = 0; i < n; i++) to[i] = by * (2 * i + 1);
}

static uint64_t digest(const uint64_t *from, uint64_t n) {
    uint64_t sum = 0;
    for (uint64_t i = 0; i < n; i++) sum += (i + 1) * from[i];
    return sum;
}

static void log_run(void) {
    uint64_t head[3] = {N(0), N(1), N(2)};
    seeded(log_words, COINHAMPER_LOG_WORDS, N(3));
    for (uint64_t i = 1; i <= N(4); i++) {
        uint64_t d[14] = {0, i, 2 * i, 3 * i, i % 4, (i + 1) % 4, 6 * i, 2, i, 9 * i, 10 * i, 11 * i, 12 * i, 13 * i};
        WANT(coinhamper_record_decision(head, 3, log_words, COINHAMPER_LOG_WORDS, d, 14) == 0);
    }
    memset(recent, 0, sizeof recent);
    WANT(coinhamper_recent_decisions(head, 3, log_words, COINHAMPER_LOG_WORDS, recent, COINHAMPER_LOG_WORDS) == 0);
    for (size_t i = 0; i < 3; i++) number(head[i]);
    number(digest(log_words, COINHAMPER_LOG_WORDS));
    number(digest(recent, COINHAMPER_LOG_WORDS));
}

static bool logged(const char *name) {
    uint64_t head[3] = {0, 0, 0}, r;
    size_t n = 0;
    if (args > 2 && !arg[0].list && !arg[1].list && !arg[2].list) memcpy(head, (uint64_t[]){N(0), N(1), N(2)}, sizeof head);
    if (!strcmp(name, "of_words")) {
        r = coinhamper_is_decision(L(0));
        number(r);
        for (size_t i = 0; r && i < 14; i++) /* the row's words are written anew, every NaN as the one */
            if ((i >= 1 && i <= 3) || i >= 11) arg[0].words[i] = bits_of(float_of(arg[0].words[i]));
        list(arg[0].words, r ? 14 : 0);
    } else if (!strcmp(name, "kept_place")) {
        number(coinhamper_kept_place(N(0), N(3)));
    } else if (!strcmp(name, "record_decision")) {
        seeded(log_words, N(3), N(4));
        seeded(recent, N(3), N(4));
        number(coinhamper_record_decision(head, 3, log_words, N(3), L(5)));
        for (size_t i = 0; i < 3; i++) number(head[i]);
        uint64_t changed[2 * 14];
        for (uint64_t i = 0; i < N(3); i++)
            if (log_words[i] != recent[i] && n < 28) changed[n++] = i, changed[n++] = log_words[i];
        list(changed, n);
        number(digest(log_words, N(3)));
    } else if (!strcmp(name, "recent_decisions")) {
        seeded(log_words, N(3), N(4));
        seeded(recent, N(5), N(6));
        r = coinhamper_recent_decisions(head, 3, log_words, N(3), recent, N(5));
        number(r);
        number(r ? 0 : head[1]);
        number(digest(recent, N(5)));
        for (uint64_t i = 0; i < N(5); i++) n += recent[i] != N(6) * (2 * i + 1);
        number(n);
    } else if (!strcmp(name, "log_run")) {
        log_run();
    } else if (!strcmp(name, "fits_length")) {
        seeded(log_words, N(3), N(4));
        number(coinhamper_fits_length(head, 3, log_words, N(3), &n));
        number(n);
    } else if (!strcmp(name, "write_fits")) {
        seeded(log_words, N(3), N(4));
        for (uint64_t i = 0; i < arg[6].count && N(5) + i < N(3); i++) log_words[N(5) + i] = arg[6].words[i];
        memset(room, (int)N(8), N(7));
        number(coinhamper_write_fits(head, 3, log_words, N(3), room, N(7), &n));
        number(n);
        uint64_t sum = 0;
        for (uint64_t i = 0; i < N(7); i++) sum += (i + 1) * room[i];
        number(sum);
        uint64_t end = N(10) < N(7) ? N(10) : N(7), from = N(9) < end ? N(9) : end;
        byte_list(room + from, end - from);
    } else if (!strcmp(name, "read_log")) {
        seeded(log_words, N(1), N(2));
        memset(head, 0, sizeof head);
        number(coinhamper_read_log(B(0), head, 3, log_words, N(1)));
        for (size_t i = 0; i < 3; i++) number(head[i]);
        list(log_words, N(1) < 28 ? N(1) : 28);
        number(digest(log_words, N(1)));
    } else {
        return false;
    }
    return true;
}

static void last_line(size_t n) {
    size_t from = n ? n - 1 : 0;
    while (from && room[from - 1] != '\n') from--;
    byte_list(room + from, n - from);
}

static bool texts(const char *name) {
    uint64_t r;
    size_t n = 0;
    if (!strcmp(name, "refused_lines")) {
        r = coinhamper_refused_lines(B(0), B(1), &n);
    } else if (!strcmp(name, "replay")) {
        r = coinhamper_replay(B(0), B(1), &n);
    } else if (!strcmp(name, "replay_filled") || !strcmp(name, "log_filled")) {
        for (uint64_t i = 0; i < N(1); i++) filled[i] = arg[0].count ? arg[0].bytes[i % arg[0].count] : 0;
        if (name[0] == 'r') {
            number(coinhamper_replay(filled, N(1), room, sizeof room, &n));
            number(n);
        } else {
            uint64_t head[3] = {0, 0, 0};
            seeded(log_words, COINHAMPER_LOG_WORDS, 1);
            number(coinhamper_read_log(filled, N(1), head, 3, log_words, COINHAMPER_LOG_WORDS));
            number(head[1]);
            number(head[2]);
            number(digest(log_words, COINHAMPER_LOG_WORDS));
            WANT(coinhamper_refused_lines(filled, N(1), room, sizeof room, &n) == 0);
            number(n);
        }
        last_line(n);
        return true;
    } else {
        return false;
    }
    number(r);
    number(n);
    byte_list(B(1));
    return true;
}

static bool arithmetic(const char *name) {
    if (!strcmp(name, "of_bits")) number(coinhamper_to_bits(coinhamper_of_bits(N(0))));
    else if (!strcmp(name, "minimum")) put_float(coinhamper_minimum(F(0), F(1)));
    else if (!strcmp(name, "maximum")) put_float(coinhamper_maximum(F(0), F(1)));
    else if (!strcmp(name, "absolute")) put_float(coinhamper_absolute(F(0)));
    else if (!strcmp(name, "clamp")) put_float(coinhamper_clamp(F(0)));
    else if (!strcmp(name, "of_u64")) put_float(coinhamper_of_u64(N(0)));
    else if (!strcmp(name, "truncate")) number(coinhamper_truncate(F(0)));
    else if (!strcmp(name, "sqrt")) put_float(coinhamper_sqrt(N(0)));
    else if (!strcmp(name, "ln_1p")) put_float(coinhamper_ln_1p(N(0)));
    else if (!strcmp(name, "compare")) number(coinhamper_compare(B(0), B(1)));
    else return false;
    return true;
}

unsigned long frozen(const char *questions, const char *answers) {
    FILE *asked = fopen(questions, "r"), *said = fopen(answers, "r");
    if (!asked || !said) {
        fputs("frozen: no rows there\n", stderr);
        exit(2);
    }
    char *question = NULL, *right = NULL;
    size_t question_room = 0, right_room = 0;
    unsigned long line = 0, count = 0;
    while (getline(&question, &question_room, asked) > 0 && getline(&right, &right_room, said) > 0) {
        line++;
        question[strcspn(question, "\n")] = 0;
        right[strcspn(right, "\n")] = 0;
        size_t name = strcspn(question, " ");
        if (right[0] == '?' || !split(question + name)) continue;
        question[name] = 0;
        answered = 0;
        answer[0] = 0;
        if (!governed(question) && !merged(question) && !logged(question) && !texts(question) && !arithmetic(question)) continue;
        count++;
        wanted++;
        if (strcmp(answer, right) && missed++ < 20)
            printf("frozen: line %lu, %s: %.300s\n    and should be %.300s\n", line, question, answer, right);
    }
    WANT(count > 10000);
    free(question);
    free(right);
    fclose(asked);
    fclose(said);
    return count;
}
