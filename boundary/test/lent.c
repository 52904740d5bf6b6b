#include "lent.h"
#include <sys/mman.h>
#include <unistd.h>

#define SLOTS 8
#define MOST 1200000
/* On the side that has no forbidden page so many bytes are looked at too. */
#define BESIDE 64

/* By whether they can be written; the last of each is for a log. */
static struct lent slots[2][SLOTS + 1];
static size_t used[2];
static struct lent *now[2 * SLOTS];
static size_t lent_now;
static bool behind;

static void must(bool good, const char *what) {
    if (good) return;
    perror(what);
    exit(2);
}

static void open_slot(struct lent *l, bool writable) {
    size_t page = (size_t)sysconf(_SC_PAGESIZE);
    l->size = (MOST + 2 * BESIDE + page - 1) / page * page;
    l->writable = writable;
    int file = memfd_create("lent", 0);
    must(file >= 0 && ftruncate(file, (off_t)l->size) == 0, "memfd_create");
    uint8_t *all = mmap(NULL, l->size + 2 * page, PROT_NONE, MAP_PRIVATE | MAP_ANONYMOUS, -1, 0);
    must(all != MAP_FAILED, "mmap");
    l->pages = mmap(all + page, l->size, writable ? PROT_READ | PROT_WRITE : PROT_READ, MAP_SHARED | MAP_FIXED, file, 0);
    l->own = mmap(NULL, l->size, PROT_READ | PROT_WRITE, MAP_SHARED, file, 0);
    must(l->pages != MAP_FAILED && l->own != MAP_FAILED, "mmap");
    l->before = malloc(l->size);
    must(l->before != NULL, "malloc");
    close(file);
}

void lent_open(void) {
    for (int w = 0; w < 2; w++) {
        for (size_t i = 0; i <= SLOTS; i++) open_slot(&slots[w][i], w);
        uint64_t *log = (uint64_t *)slots[w][SLOTS].own;
        for (size_t i = 0; i < slots[w][SLOTS].size / 8; i++) log[i] = any();
    }
}

void lend_anew(bool side) {
    behind = side;
    used[0] = used[1] = lent_now = 0;
}

static struct lent *place(struct lent *l, size_t bytes) {
    size_t from = behind ? l->size - bytes : 0;
    must(bytes <= MOST && lent_now < 2 * SLOTS, "lend");
    l->bytes = bytes;
    l->fill = l->own + from;
    l->at = bytes || once_in(2) ? l->pages + from : NULL;
    now[lent_now++] = l;
    return l;
}

struct lent *lend(bool writable, size_t bytes) {
    must(used[writable] < SLOTS, "lend");
    return place(&slots[writable][used[writable]++], bytes);
}

struct lent *lend_log(bool writable, size_t words) {
    return place(&slots[writable][SLOTS], 8 * words);
}

/* From where on, and how many: the lent bytes and those beside them. */
static size_t looked_at(const struct lent *l, size_t *bytes) {
    *bytes = l->bytes + BESIDE;
    return behind ? l->size - *bytes : 0;
}

void lent_keep(void) {
    for (size_t i = 0; i < lent_now; i++) {
        size_t bytes, from = looked_at(now[i], &bytes);
        if (now[i]->writable) memcpy(now[i]->before, now[i]->own + from, bytes);
    }
}

void lent_allow(struct lent *l, size_t from, size_t bytes) {
    memcpy(l->before + (behind ? BESIDE : 0) + from, (uint8_t *)l->fill + from, bytes);
}

bool unchanged(const struct lent *l, size_t answer) {
    size_t bytes, from = looked_at(l, &bytes), front = behind ? BESIDE : 0;
    if (!l->writable) return true;
    if (memcmp(l->before, l->own + from, front)) return false;
    return !memcmp(l->before + front + answer, l->own + from + front + answer, bytes - front - answer);
}
