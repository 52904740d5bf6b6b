/* How much stack a call takes. Each runs in a process of its own, on a thread whose stack ends 32 KiB below the frame that calls it: a deeper call ends by a
 * signal. The thread's own need above that frame (its descriptor, thread-local storage, the frames that start it) is measured first and added. */
#include "test.h"
#include <pthread.h>
#include <sys/mman.h>
#include <sys/wait.h>
#include <unistd.h>

#define LIMIT ((size_t)32 << 10)
#define WHOLE ((size_t)1 << 20) /* more than the least stack that a thread may be made with */
#define TABLES 1024
#define PAINT 0xa5

static uint64_t tables[7 * TABLES], over[2 * 16], candidates[COINHAMPER_MOST_CANDIDATE_WORDS], numbers[145 * TABLES], estimates[145 * 9], picked[6];
static uint8_t keys[2 * TABLES], text[1 << 20], out[1 << 21];
static uint64_t head[COINHAMPER_HEAD_WORDS] = {4095, 4096, 9}, log_words[COINHAMPER_LOG_WORDS];
static size_t text_len, candidate_count, number_count, written;

/* 1,024 tables, each on a key of its own, so that all are free to move, the oldest on the first, so that there are batches of eight; levels 0 to 15 are over
 * budget. oracle/src/offered.rs has the same plans as frozen rows. */
static void lay_out(uint64_t levels, uint64_t on_level_1) {
    for (uint64_t i = 0; i < TABLES; i++) {
        keys[2 * i] = (uint8_t)(i >> 8), keys[2 * i + 1] = (uint8_t)i;
        const uint64_t level = i < TABLES - on_level_1 ? i % levels : 1;
        memcpy(tables + 7 * i, (uint64_t[]){i, level, TABLES - i, 2 * i, 2, 2 * i, 2}, 7 * sizeof *tables);
    }
    for (uint64_t i = 0; i < 16; i++) memcpy(over + 2 * i, (uint64_t[]){i, 1}, 2 * sizeof *over);
}

/* A text of one line, so many times. */
static void repeat(const char *line, size_t times) {
    const size_t len = strlen(line);
    for (size_t i = 0; i < times; i++) memcpy(text + len * i, line, len);
    text_len = len * times;
}

static uint64_t generate(void) {
    return coinhamper_generate_candidates(tables, 7 * TABLES, keys, sizeof keys, 1, over, 2 * 16, candidates, COINHAMPER_MOST_CANDIDATE_WORDS, numbers,
        145 * TABLES, &candidate_count, &number_count);
}

static uint64_t estimate(void) {
    return coinhamper_estimate_candidates(tables, 7 * TABLES, TABLES, over, 2 * 16, candidates, 6 * candidate_count, numbers, number_count, estimates,
        9 * candidate_count);
}

static uint64_t pick(void) {
    return coinhamper_pick_best_cause_aware(0.5, 0.5, 0.5, 0, 0, 0, candidates, 145 * 6, estimates, 145 * 9, picked, 6);
}

static uint64_t write_fits(void) {
    return coinhamper_write_fits(head, COINHAMPER_HEAD_WORDS, log_words, COINHAMPER_LOG_WORDS, out, sizeof out, &written);
}

static uint64_t read_log(void) {
    return coinhamper_read_log(text, text_len, head, COINHAMPER_HEAD_WORDS, log_words, COINHAMPER_LOG_WORDS);
}

static uint64_t replay(void) {
    return coinhamper_replay(text, text_len, out, sizeof out, &written);
}

/* A call on a thread, and where the frame stands that calls it. */
struct job {
    uint64_t (*call)(void);
    uint8_t *frame;
    uint64_t refusal;
};

static void *calls(void *job) {
    struct job *j = job;
    j->frame = __builtin_frame_address(0);
    if (j->call) j->refusal = j->call();
    return NULL;
}

static bool threaded(struct job *j, uint8_t *stack, size_t size) {
    pthread_attr_t kind;
    pthread_t thread;
    return pthread_attr_init(&kind) == 0 && pthread_attr_setstack(&kind, stack, size) == 0 && pthread_create(&thread, &kind, calls, j) == 0 &&
        pthread_join(thread, NULL) == 0;
}

static uint8_t *room(void) {
    uint8_t *all = mmap(NULL, WHOLE, PROT_READ | PROT_WRITE, MAP_SHARED | MAP_ANONYMOUS, -1, 0);
    if (all == MAP_FAILED) perror("mmap"), exit(2);
    return all;
}

/* Bytes from a thread's stack's top down to the frame that calls, a multiple of 64, which is how a thread's descriptor is aligned. */
static size_t own_need(void) {
    struct job none = {.call = NULL};
    uint8_t *all = room();
    WANT(threaded(&none, all, WHOLE));
    const size_t own = (size_t)(all + WHOLE - none.frame + 63) & ~(size_t)63;
    munmap(all, WHOLE);
    return own;
}

/* What a call took of so many bytes below its caller's frame, and how its process ended: 0 where it was accepted. */
static size_t taken(uint64_t (*call)(void), size_t limit, size_t own, int *status) {
    const size_t page = (size_t)sysconf(_SC_PAGESIZE), closed = WHOLE / 2 / page * page, open = limit + own;
    uint8_t *all = room();
    memset(all + closed, PAINT, open);
    fflush(NULL);
    const pid_t child = fork();
    if (child == 0) {
        struct job j = {.call = call};
        if (!freopen("/dev/null", "w", stderr) || mprotect(all, closed, PROT_NONE) != 0) _exit(2);
        _exit(threaded(&j, all, closed + open) && j.refusal == 0 ? 0 : 1);
    }
    WANT(child > 0 && waitpid(child, status, 0) == child);
    size_t left = 0;
    while (left < limit && all[closed + left] == PAINT) left++;
    munmap(all, WHOLE);
    return limit - left;
}

static void within(const char *what, uint64_t (*call)(void), size_t own) {
    int status = -1;
    const size_t took = taken(call, LIMIT, own, &status);
    if (status == 0)
        printf("stack: %-44s %6zu bytes\n", what, took);
    else
        printf("stack: %-44s %s\n", what, WIFSIGNALED(status) ? "too deep" : "refused");
    WANT(status == 0);
}

void stacks(void) {
    const size_t own = own_need();
    printf("stack: below the frame that calls there are %zu bytes; a thread's own need above it is %zu\n", LIMIT, own);
    int status = 0;
    lay_out(1, 0);
    taken(generate, 1024, own, &status);
    WANT(WIFSIGNALED(status)); /* the bound is one: 1 KiB is too little */
    within("generation, 1,024 tables in L0", generate, own);
    lay_out(1, 1);
    within("generation, 1,023 in L0 and one in level 1", generate, own);
    lay_out(1, TABLES);
    within("generation, 1,024 in level 1", generate, own);
    lay_out(17, 0);
    within("generation, 17 levels", generate, own);
    lay_out(4, 0);
    within("generation, four full levels", generate, own);
    WANT(generate() == 0);
    within("estimation of what that offers", estimate, own);
    for (uint64_t i = 0; i < 145; i++) {
        memcpy(candidates + 6 * i, (uint64_t[]){2, i % 5, 1 + i % 8, 1, 0, 0}, 6 * sizeof *candidates);
        memcpy(estimates + 9 * i, (uint64_t[]){5, 5, 10, 5, 0, 3, 0, bits_of(1), 0}, 9 * sizeof *estimates);
    }
    within("choice among 145 candidates", pick, own);
    within("a full log as a FITS table", write_fits, own);
    repeat("41,0000000000000000,3ff0000000000000,0000000000000000,2,3,4,3,1,0,0,0000000000000000,3FEAAAAAAAAAAAAB,0000000000000000\r\n", 4096);
    within("a full log from its text", read_log, own);
    repeat("1000,0,4,0000000000000000,0000000000000000,0\n", 1400);
    within("replay, 1,400 lines", replay, own);
}
