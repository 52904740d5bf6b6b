/* What the parts of the C test share. */
#ifndef TEST_H
#define TEST_H
#include "coinhamper.h"
#include <stdbool.h>
#include <stdint.h>
#include <stdio.h>
#include <stdlib.h>
#include <string.h>

#define STATE_WORDS 28
#define TOP53 ((uint64_t)1 << 53)

/* What was wanted and did not come, told by file and line; the first twenty are printed. */
extern unsigned long wanted, missed;
#define WANT(e) ((e) ? (void)wanted++ : missing(__FILE__, __LINE__, #e))
void missing(const char *file, int line, const char *what);

uint64_t bits_of(double x);
double float_of(uint64_t bits);
/* Equal as floats stand in words: all NaNs are one. */
bool same_float(double a, double b);

/* Numbers by a seed (splitmix64). */
void seed(uint64_t n);
uint64_t any(void);
uint64_t below(uint64_t n);
bool once_in(uint64_t n);
/* At or beside a limit, small, or any. */
uint64_t odd_number(void);
/* The bits of a float: thresholds and their neighbours, zeros, infinities, NaNs, subnormals, or any. */
uint64_t odd_bits(void);
double odd_float(void);
double unit_float(void);

/* The parts. */
void rows(void);
void stacks(void);
unsigned long frozen(const char *questions, const char *answers);
void hostile(unsigned long calls);
void state_run(unsigned long calls);
#endif
