/* What all groups of tests share: the case that is running, counting, failing, random numbers. */
#ifndef CHECK_H
#define CHECK_H

#include <stdint.h>

/* Before the first group. */
void check_start(uint64_t seed);

/* A group of cases begins. Its random numbers depend on the seed and the group's name alone. */
void group_begin(const char *name);

/* It ends: prints how many cases it ran, and fails if there was none. */
void group_end(void);

/* Says which case runs from here on, for the message of a failure. */
void running(const char *format, ...) __attribute__((format(printf, 1, 2)));

/* Writes the group and the case to standard error; safe in a signal handler. */
void describe_running(void);

void count_case(void);
unsigned long long cases_so_far(void);

/* Prints the group, the case and what is wrong, and ends the program with status 1. */
_Noreturn void fail(const char *format, ...) __attribute__((format(printf, 1, 2)));

/* Random numbers: any, or below a bound. */
uint32_t draw(void);
uint32_t draw_below(uint32_t bound);

#endif
