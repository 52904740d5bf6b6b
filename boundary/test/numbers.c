/* Numbers to test with. */
#include "test.h"

unsigned long wanted, missed;

void missing(const char *file, int line, const char *what) {
    wanted++;
    if (missed++ < 20) printf("%s:%d: not so: %s\n", file, line, what);
}

uint64_t bits_of(double x) {
    uint64_t n;
    memcpy(&n, &x, sizeof n);
    return x != x ? 0x7ff8000000000000u : n;
}

double float_of(uint64_t bits) {
    double x;
    memcpy(&x, &bits, sizeof x);
    return x;
}

bool same_float(double a, double b) {
    return bits_of(a) == bits_of(b);
}

static uint64_t at;

void seed(uint64_t n) {
    at = n;
}

uint64_t any(void) {
    uint64_t z = at += 0x9e3779b97f4a7c15u;
    z = (z ^ z >> 30) * 0xbf58476d1ce4e5b9u;
    z = (z ^ z >> 27) * 0x94d049bb133111ebu;
    return z ^ z >> 31;
}

uint64_t below(uint64_t n) {
    return any() % n;
}

bool once_in(uint64_t n) {
    return below(n) == 0;
}

uint64_t odd_number(void) {
    static const uint64_t limits[] = {0, 3, 8, 14, 16, 1024, 4096, 0x100000000u, (uint64_t)1 << 40, (uint64_t)1 << 50, TOP53, (uint64_t)1 << 63, UINT64_MAX};
    switch (below(4)) {
    case 0: return below(10);
    case 1: return any();
    case 2: return any() >> below(64);
    default: return limits[below(sizeof limits / sizeof *limits)] + below(3) - 1;
    }
}

uint64_t odd_bits(void) {
    static const double limits[] = {0.0, 0.05, 0.3, 0.45, 0.5, 0.75, 1.0, 1.15, 1.5, 1.6, 3.0, 18446744073709551616.0};
    static const uint64_t strange[] = {0x7ff0000000000000u, 0xfff0000000000000u, 0x7ff8000000000000u, 0xfff8000000000000u, 0x7ff0000000000001u,
        0x7ff4000000000001u, 0xffffffffffffffffu, 0x8000000000000000u, 1, 0x000fffffffffffffu, 0x0010000000000000u, 0x7fefffffffffffffu};
    switch (below(4)) {
    case 0: return any();
    case 1: return strange[below(sizeof strange / sizeof *strange)];
    case 2: return bits_of(unit_float() * 4);
    default: return (bits_of(limits[below(sizeof limits / sizeof *limits)]) + below(3) - 1) ^ (once_in(8) ? (uint64_t)1 << 63 : 0);
    }
}

double odd_float(void) {
    return float_of(odd_bits());
}

double unit_float(void) {
    return once_in(8) ? (double)below(2) : (double)(any() >> 11) / 9007199254740992.0;
}
