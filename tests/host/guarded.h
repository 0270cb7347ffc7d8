/*
 * Runs of bytes between unreadable pages: a byte touched outside the run stops the program.
 *
 * A run's own pages are seldom full, so it is placed in one of two ways, with its last byte against the unreadable pages above
 * or with its first byte against those below. The slack on the other side holds a pattern that is checked after the call. A test
 * tries each run in both placements; their patterns differ in every byte of a run, so that no written byte goes unseen in both.
 */
#ifndef GUARDED_H
#define GUARDED_H

#include <stdbool.h>
#include <stddef.h>
#include <stdint.h>

enum placement { AGAINST_THE_PAGE_ABOVE, AGAINST_THE_PAGE_BELOW, PLACEMENTS };

struct run {
    uint8_t *bytes; /* what is lent; of an empty run, an address in an unreadable page */
    size_t length;
    enum placement placement;
    uint8_t *pages; /* the readable pages that hold the run */
    size_t pages_length;
    uint8_t *mapping; /* those pages with the unreadable ones on both sides */
    size_t mapping_length;
};

/* A run filled with its placement's pattern, or with the content given. */
struct run run_of_pattern(size_t length, enum placement placement);
struct run run_of(const uint8_t *content, size_t length, enum placement placement);

/* A run too long to be filled: read-only zeros that take no memory until they are read. */
struct run run_of_zeros(size_t length);

/* From now on a write to the run stops the program. */
void run_make_read_only(const struct run *run);

/* Whether the pattern is still in every byte beside the run, and in every byte of the run itself. */
bool run_slack_is_intact(const struct run *run);
bool run_is_intact(const struct run *run);

void run_free(struct run *run);

/* A stack for a thread with unreadable pages below it, filled with a pattern; and how many of its bytes have been used since. */
struct run stack_of(size_t length);
size_t stack_used(const struct run *stack);

const char *placement_name(enum placement placement);

/* On SIGSEGV or SIGBUS, `describe` says which case was running, and the program exits with status 1. */
void watch_for_stray_access(void (*describe)(void));

/* The same in a further thread, which needs a stack of its own for the handler. */
void watch_in_this_thread(void);

#endif
