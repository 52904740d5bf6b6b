/* Hostile words: good ones with one field or the length damaged, and any at all, in memory that ends or begins at a forbidden page. Every refusal is worked out
 * a second time (rules.c); a refused call must leave all memory as it was, an accepted one all that lies behind its answer. */
#include "hostile.h"
#include <signal.h>
#include <unistd.h>

static const struct {
    const char *name, *refusals;
    unsigned often;
    void (*tried)(void);
} exports[] = {
#define EXPORT(name, refusals, often) {#name, refusals, often, try_##name},
    EXPORTS
#undef EXPORT
};
#define COUNT (sizeof exports / sizeof *exports)

static unsigned long answered[COUNT][102];
static size_t export;
static unsigned long call;

void judge(uint64_t answer, uint64_t want) {
    wanted++;
    if (answer <= 101) answered[export][answer]++;
    if (answer != want && missed++ < 20)
        printf("call %lu, %s: answered %llu, should be %llu\n", call, exports[export].name, (unsigned long long)answer, (unsigned long long)want);
}

void judge_float(double answer, double want) {
    judge(same_float(answer, want) ? 0 : 1, 0);
}

void also(bool so, const char *what) {
    wanted++;
    if (!so && missed++ < 20) printf("call %lu, %s: %s\n", call, exports[export].name, what);
}

void left(const struct lent *l, size_t answer) {
    also(unchanged(l, answer), "memory was changed that is not its answer's");
}

static void crashed(int signal) {
    dprintf(1, "call %lu, %s: touched memory that was not lent to it (signal %d)\n", call, exports[export].name, signal);
    _exit(1);
}

size_t odd_length(size_t right) {
    switch (below(24)) {
    case 0: return right ? right - 1 : 0;
    case 1: return right + 1;
    case 2: return 0;
    case 3: return below(right + 8);
    default: return right;
    }
}

size_t odd_room(size_t enough) {
    switch (below(8)) {
    case 0: return enough ? enough - 1 : 0;
    case 1: return 0;
    case 2: return below(enough + 1);
    case 3: return enough + 1 + below(20);
    default: return enough;
    }
}

void damage(uint64_t *words, size_t n) {
    if (n == 0) return;
    uint64_t *w = &words[below(n)];
    switch (below(3)) {
    case 0: *w = odd_bits(); break;
    case 1: *w ^= (uint64_t)1 << below(64); break;
    default: *w = odd_number(); break;
    }
}

struct lent *lend_words(bool writable, const uint64_t *words, size_t n) {
    struct lent *l = lend(writable, 8 * odd_length(n));
    size_t count = l->bytes / 8;
    for (size_t i = 0; i < count; i++) FILL(l)[i] = i < n ? words[i] : any();
    if (once_in(4)) damage(l->fill, count);
    return l;
}

struct lent *lend_room(size_t bytes) {
    struct lent *l = lend(true, bytes);
    memset(l->fill, 0x5a, bytes);
    return l;
}

/* How often each answer came; each refusal of a call must have. */
static void told(void) {
    for (size_t i = 0; i < COUNT; i++) {
        unsigned long all = 0;
        for (size_t r = 0; r <= 101; r++) all += answered[i][r];
        printf("%-36s %8lu", exports[i].name, all);
        const char *at = exports[i].refusals[0] ? exports[i].refusals : "0";
        for (char *next; *at; at = next) {
            size_t r = strtoul(at, &next, 10);
            printf(exports[i].refusals[0] ? "  %zu: %lu" : "  a number", r, answered[i][r]);
            all -= answered[i][r];
            if (answered[i][r] == 0) {
                printf(" never");
                missed++;
            }
        }
        puts(all ? "  and answers that it has not" : "");
        if (all) missed++;
    }
}

void hostile(unsigned long calls) {
    static uint8_t stack[65536];
    sigaltstack(&(stack_t){.ss_sp = stack, .ss_size = sizeof stack}, NULL);
    struct sigaction act = {.sa_handler = crashed, .sa_flags = SA_ONSTACK};
    sigaction(SIGSEGV, &act, NULL);
    sigaction(SIGBUS, &act, NULL);
    lent_open();
    make_states();
    unsigned in_all = 0;
    for (size_t i = 0; i < COUNT; i++) in_all += exports[i].often;
    for (call = 0; call < calls; call++) {
        unsigned ticket = (unsigned)below(in_all);
        for (export = 0; ticket >= exports[export].often; export++) ticket -= exports[export].often;
        lend_anew(call % 2);
        exports[export].tried();
    }
    told();
}

