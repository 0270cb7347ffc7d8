#define _GNU_SOURCE
#include "guarded.h"

#include <signal.h>
#include <stdio.h>
#include <stdlib.h>
#include <string.h>
#include <sys/mman.h>
#include <unistd.h>

/* Unreadable bytes on each side: a multiple of every page size in use, and wide enough for a stray access some pages away. */
#define GUARD ((size_t)1 << 18)

static size_t whole_pages(size_t length)
{
    size_t page = (size_t)sysconf(_SC_PAGESIZE);
    return (length + page - 1) / page * page;
}

static void must(bool done, const char *what)
{
    if (done)
        return;
    perror(what);
    exit(1);
}

/* An empty run has no readable page at all, so its address is unreadable. */
static struct run run_mapped(size_t length, enum placement placement, int access)
{
    struct run run = {.length = length, .placement = placement, .pages_length = whole_pages(length)};
    run.mapping_length = run.pages_length + 2 * GUARD;
    run.mapping = mmap(NULL, run.mapping_length, PROT_NONE, MAP_PRIVATE | MAP_ANONYMOUS | MAP_NORESERVE, -1, 0);
    must(run.mapping != MAP_FAILED, "mmap");
    run.pages = run.mapping + GUARD;
    must(run.pages_length == 0 || mprotect(run.pages, run.pages_length, access) == 0, "mprotect");
    run.bytes = placement == AGAINST_THE_PAGE_ABOVE ? run.pages + run.pages_length - length : run.pages;
    return run;
}

/* By the place from the run's first byte. One placement's is the complement of the other's: they differ in every byte of a run. */
static uint8_t pattern(const struct run *run, const uint8_t *place)
{
    uint8_t byte = (uint8_t)(31 * (place - run->bytes) + 7);
    return run->placement == AGAINST_THE_PAGE_ABOVE ? byte : (uint8_t)~byte;
}

static void fill(const struct run *run)
{
    for (size_t i = 0; i < run->pages_length; i++)
        run->pages[i] = pattern(run, run->pages + i);
}

struct run run_of_pattern(size_t length, enum placement placement)
{
    struct run run = run_mapped(length, placement, PROT_READ | PROT_WRITE);
    fill(&run);
    return run;
}

struct run run_of(const uint8_t *content, size_t length, enum placement placement)
{
    struct run run = run_of_pattern(length, placement);
    if (length > 0)
        memcpy(run.bytes, content, length);
    return run;
}

struct run run_of_zeros(size_t length)
{
    return run_mapped(length, AGAINST_THE_PAGE_ABOVE, PROT_READ);
}

void run_make_read_only(const struct run *run)
{
    if (run->pages_length > 0)
        must(mprotect(run->pages, run->pages_length, PROT_READ) == 0, "mprotect");
}

static bool has_pattern(const struct run *run, size_t from, size_t to)
{
    for (size_t i = from; i < to; i++)
        if (run->pages[i] != pattern(run, run->pages + i))
            return false;
    return true;
}

bool run_slack_is_intact(const struct run *run)
{
    size_t start = (size_t)(run->bytes - run->pages);
    return has_pattern(run, 0, start) && has_pattern(run, start + run->length, run->pages_length);
}

bool run_is_intact(const struct run *run)
{
    size_t start = (size_t)(run->bytes - run->pages);
    return has_pattern(run, start, start + run->length);
}

void run_free(struct run *run)
{
    must(munmap(run->mapping, run->mapping_length) == 0, "munmap");
    run->bytes = NULL;
}

struct run stack_of(size_t length)
{
    return run_of_pattern(length, AGAINST_THE_PAGE_BELOW);
}

/* A stack grows downwards: what has its pattern from the bottom up has never been used. */
size_t stack_used(const struct run *stack)
{
    size_t i = 0;
    while (i < stack->length && stack->pages[i] == pattern(stack, stack->pages + i))
        i++;
    return stack->length - i;
}

const char *placement_name(enum placement placement)
{
    return placement == AGAINST_THE_PAGE_ABOVE ? "against the page above" : "against the page below";
}

static void (*describe_case)(void);

/* Only calls that are safe in a signal handler. */
static void on_stray_access(int number)
{
    static const char segv[] = "host: FAILED: a byte outside the runs was touched, or an input written (SIGSEGV):\n";
    static const char bus[] = "host: FAILED: a byte outside the runs was touched, or an input written (SIGBUS):\n";
    ssize_t written = number == SIGSEGV ? write(2, segv, sizeof segv - 1) : write(2, bus, sizeof bus - 1);
    (void)written; /* nothing more can be done here */
    describe_case();
    _exit(1);
}

/* A stack that has run over cannot carry the handler, which therefore gets one of its own, kept until the program ends. */
void watch_in_this_thread(void)
{
    struct run room = run_of_pattern((size_t)1 << 16, AGAINST_THE_PAGE_BELOW);
    stack_t other = {.ss_sp = room.bytes, .ss_size = room.length};
    must(sigaltstack(&other, NULL) == 0, "sigaltstack");
}

void watch_for_stray_access(void (*describe)(void))
{
    struct sigaction action = {.sa_handler = on_stray_access, .sa_flags = SA_ONSTACK};
    describe_case = describe;
    sigemptyset(&action.sa_mask);
    must(sigaction(SIGSEGV, &action, NULL) == 0, "sigaction");
    must(sigaction(SIGBUS, &action, NULL) == 0, "sigaction");
    watch_in_this_thread();
}
