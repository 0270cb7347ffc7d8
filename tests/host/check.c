#define _POSIX_C_SOURCE 200809L
#include "check.h"

#include <inttypes.h>
#include <stdarg.h>
#include <stdio.h>
#include <stdlib.h>
#include <string.h>
#include <unistd.h>

static uint64_t seed;
static uint64_t state;
static const char *group = "before the first group";
static char current[512];
static unsigned long long total;
static unsigned long long total_before_group;

void check_start(uint64_t given)
{
    seed = given;
    printf("host: seed %" PRIu64 "\n", seed);
}

/* Mixes a name into a number, so that groups draw different numbers and none depends on the groups before it. */
static uint64_t mixed(uint64_t number, const char *name)
{
    for (; *name != '\0'; name++)
        number = (number ^ (uint8_t)*name) * UINT64_C(1099511628211);
    return number;
}

void group_begin(const char *name)
{
    group = name;
    current[0] = '\0';
    state = mixed(seed, name);
    total_before_group = total;
}

void group_end(void)
{
    unsigned long long ran = total - total_before_group;
    if (ran == 0)
        fail("the group ran no case");
    printf("host: %s: %llu cases\n", group, ran);
    fflush(stdout);
}

void running(const char *format, ...)
{
    va_list arguments;
    va_start(arguments, format);
    vsnprintf(current, sizeof current, format, arguments);
    va_end(arguments);
}

static void put(const char *text)
{
    ssize_t written = write(2, text, strlen(text));
    (void)written; /* nothing more can be done where standard error is gone */
}

void describe_running(void)
{
    put("host: group: ");
    put(group);
    put("\nhost: case: ");
    put(current);
    put("\n");
}

void count_case(void)
{
    total++;
}

unsigned long long cases_so_far(void)
{
    return total;
}

_Noreturn void fail(const char *format, ...)
{
    va_list arguments;
    fflush(stdout);
    fprintf(stderr, "host: FAILED, seed %" PRIu64 "\n", seed);
    describe_running();
    fprintf(stderr, "host: ");
    va_start(arguments, format);
    vfprintf(stderr, format, arguments);
    va_end(arguments);
    fprintf(stderr, "\n");
    exit(1);
}

/* A linear congruence: every state comes once before any comes again. Its low bits have short periods and are left out. */
uint32_t draw(void)
{
    state = state * UINT64_C(6364136223846793005) + 1;
    return (uint32_t)(state >> 32);
}

uint32_t draw_below(uint32_t bound)
{
    return draw() % bound;
}
