/*
 * The host's test program: the two calls of include/cube_balance.h against document 01, with document 02's rule for the curve.
 *
 *     main [SEED]
 *
 * Prints a line for each group of cases, and at the end how many cases it ran. The first failure ends it with status 1.
 */
#include "check.h"
#include "groups.h"
#include "guarded.h"

#include <errno.h>
#include <inttypes.h>
#include <stdio.h>
#include <stdlib.h>

static const uint64_t DEFAULT_SEED = 20170101;

static uint64_t seed_of(int argc, char **argv)
{
    char *end;
    if (argc == 1)
        return DEFAULT_SEED;
    errno = 0;
    uint64_t seed = strtoull(argv[1], &end, 10);
    if (argc == 2 && errno == 0 && end != argv[1] && *end == '\0')
        return seed;
    fprintf(stderr, "usage: main [SEED]\n");
    exit(2);
}

int main(int argc, char **argv)
{
    uint64_t seed = seed_of(argc, argv);
    setvbuf(stdout, NULL, _IOLBF, 0); /* so that the groups before a stray access are seen */
    check_start(seed);
    watch_for_stray_access(describe_running);
    test_frames();
    test_refusals();
    test_broken_curves();
    test_empty_runs();
    test_strips();
    test_ties();
    test_every_colour();
    test_threads();
    printf("host: %llu cases, seed %" PRIu64 ": ok\n", cases_so_far(), seed);
    return 0;
}
