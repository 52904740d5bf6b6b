/* The C test of libcoinhamper.a: test rows | stack | frozen QUESTIONS ANSWERS | hostile SEED CALLS | run SEED CALLS */
#include "test.h"

int main(int n, char **words) {
    setvbuf(stdout, NULL, _IOLBF, 0); /* a crash must not swallow what was said before it */
    if (coinhamper_version() != COINHAMPER_VERSION) {
        printf("the header is of version %d and the library of version %llu\n", COINHAMPER_VERSION, (unsigned long long)coinhamper_version());
        return 1;
    }
    unsigned long calls = n == 4 ? strtoul(words[3], NULL, 10) : 0;
    if (n == 2 && !strcmp(words[1], "rows")) {
        rows();
    } else if (n == 2 && !strcmp(words[1], "stack")) {
        stacks();
    } else if (n == 4 && !strcmp(words[1], "frozen")) {
        printf("frozen rows: %lu asked through the library\n", frozen(words[2], words[3]));
    } else if (n == 4 && !strcmp(words[1], "hostile")) {
        seed(strtoull(words[2], NULL, 10));
        hostile(calls);
    } else if (n == 4 && !strcmp(words[1], "run")) {
        seed(strtoull(words[2], NULL, 10));
        state_run(calls);
    } else {
        fputs("test rows | stack | frozen QUESTIONS ANSWERS | hostile SEED CALLS | run SEED CALLS\n", stderr);
        return 2;
    }
    printf("%s: %lu wants, %lu missed\n", words[1], wanted, missed);
    return missed != 0;
}
