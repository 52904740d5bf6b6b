/* Memory to lend. It ends where a page begins that nobody may touch, or begins where such a page ends. What is lent to be read stands in pages that can't be
 * written; the test fills them by a second mapping. */
#ifndef LENT_H
#define LENT_H
#include "test.h"

struct lent {
    void *at;     /* as lent: NULL, now and then, where there is nothing */
    void *fill;   /* the same bytes, for the test to write */
    size_t bytes;
    bool writable;
    uint8_t *pages, *own, *before;
    size_t size;
};

void lent_open(void);
/* From here on all memory is lent anew; `behind`: the forbidden page comes behind it, else before it. */
void lend_anew(bool behind);
struct lent *lend(bool writable, size_t bytes);
/* The words of a log: filled once, and then as the calls leave them. */
struct lent *lend_log(bool writable, size_t words);
/* Before a call: what all of it holds is kept. */
void lent_keep(void);
/* After it: a part that was the call's to write; and whether all is as it was, but for the first `answer` bytes. */
void lent_allow(struct lent *l, size_t from, size_t bytes);
bool unchanged(const struct lent *l, size_t answer);

#define WORDS(l) (l)->at, (l)->bytes / 8
#define BYTES(l) (l)->at, (l)->bytes
#define FILL(l) ((uint64_t *)(l)->fill)
#endif
