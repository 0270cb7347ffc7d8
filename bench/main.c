/*
 * Times the library's two calls beside the plain C version: on one core, in one run, the two in turns. What it prints are the tables
 * of docs/BENCHMARK.md; the last one, on the dial, is dial.c's. No time is taken before both have given the same bytes. With the argument
 * `check` it stops after that.
 */
#define _POSIX_C_SOURCE 200809L
#include "cube_balance.h"
#include "dial.h"
#include "frames.h"
#include "plain.h"
#include "timing.h"

#include <stdio.h>
#include <stdlib.h>
#include <string.h>
#include <time.h>

enum { MOST_PIXELS = 3840 * 2160, FEW_PIXELS = 1000 };

static const double SLOT_MS = 41.7;

/* What a job works on. */
typedef struct {
    const uint8_t *source;
    size_t length;
    uint8_t *destination;
    uint32_t choice;
    uint32_t method;
    uint8_t curve[CUBE_BALANCE_CURVE_LENGTH];
} Work;

typedef void Job(Work *);

/* ---- The jobs ---- */

static void accepted(uint32_t number)
{
    if (number == CUBE_BALANCE_ACCEPTED)
        return;
    fprintf(stderr, "bench: refused %u\n", number);
    exit(1);
}

static void our_curve(Work *w)
{
    accepted(cube_balance_curve(w->source, w->length, w->choice, w->curve, sizeof w->curve));
}

static void our_colour(Work *w)
{
    accepted(cube_balance_colour(w->curve, sizeof w->curve, w->method, w->source, w->length, w->destination, w->length));
}

static void our_whole(Work *w)
{
    our_curve(w);
    our_colour(w);
}

static void c_curve(Work *w)
{
    plain_curve(w->source, w->length, w->choice, w->curve);
}

static void c_colour(Work *w)
{
    plain_colour(w->curve, w->method, w->source, w->length, w->destination);
}

static void c_whole(Work *w)
{
    c_curve(w);
    c_colour(w);
}

static void c_copy(Work *w)
{
    memcpy(w->destination, w->source, w->length);
}

/* ---- The same bytes ---- */

static void same(const char *what, const uint8_t *a, const uint8_t *b, size_t length)
{
    if (memcmp(a, b, length) == 0)
        return;
    fprintf(stderr, "bench: the library and plain C differ in %s\n", what);
    exit(1);
}

/* The destination is cleared first, so that what an earlier colouring left there does not count. */
static void same_pictures(Work *w, uint8_t *expected)
{
    for (w->method = 1; w->method <= 2; w->method++) {
        memset(w->destination, 0, w->length);
        our_colour(w);
        plain_colour(w->curve, w->method, w->source, w->length, expected);
        same("a picture", w->destination, expected, w->length);
    }
}

static void same_bytes(Work *w, uint8_t *expected)
{
    uint8_t curve[CUBE_BALANCE_CURVE_LENGTH];
    for (w->choice = 1; w->choice <= 2; w->choice++) {
        our_curve(w);
        plain_curve(w->source, w->length, w->choice, curve);
        same("a curve", w->curve, curve, sizeof curve);
        same_pictures(w, expected);
    }
}

/* ---- Timing ---- */

static double now(void)
{
    struct timespec t;
    clock_gettime(CLOCK_MONOTONIC, &t);
    return (double)t.tv_sec + 1e-9 * (double)t.tv_nsec;
}

/* The time of one call. A short one is repeated, so that the clock's step does not count. */
static double seconds(Job *job, Work *w)
{
    size_t repeats = 1 + 200000 / (w->length / 3 + 1000);
    double start = now();
    for (size_t k = 0; k < repeats; k++)
        job(w);
    return (now() - start) / (double)repeats;
}

/* In turns, and each first in every other turn, so that what else the machine does falls on both. */
static Both time_both(Job *ours, Job *plain, Work *w)
{
    double our_runs[RUNS], plain_runs[RUNS];
    for (int k = 0; k < RUNS; k++) {
        if (k % 2 == 0)
            our_runs[k] = seconds(ours, w);
        plain_runs[k] = seconds(plain, w);
        if (k % 2 == 1)
            our_runs[k] = seconds(ours, w);
    }
    return (Both){.ours = times_of(our_runs), .plain = times_of(plain_runs)};
}

static Times time_one(Job *job, Work *w)
{
    double runs[RUNS];
    for (int k = 0; k < RUNS; k++)
        runs[k] = seconds(job, w);
    return times_of(runs);
}

/* ---- One frame ---- */

/* A row in nanoseconds a pixel. `moved` is how many bytes a pixel are read and written, 0 where that says nothing. */
static void row(const char *frame, const char *job, size_t pixels, Both seconds, double moved)
{
    Both ns = both_scaled(seconds, 1e9 / (double)pixels);
    printf("| %s | %s | %#.3g | %#.3g | %#.3g | %#.3g | %.2f | %.2f |", frame, job, ns.ours.best, ns.ours.median, ns.plain.best,
           ns.plain.median, ns.plain.best / ns.ours.best, ns.plain.median / ns.ours.median);
    if (moved > 0)
        printf(" %.1f |\n", moved / ns.ours.best);
    else
        printf(" |\n");
}

/* A thousand pixels of a frame, spread evenly. */
static void take_few(const uint8_t *source, size_t pixels, uint8_t *few)
{
    for (size_t k = 0; k < FEW_PIXELS; k++)
        memcpy(few + 3 * k, source + 3 * (k * pixels / FEW_PIXELS), 3);
}

/*
 * A curve call takes a time for each pixel (measuring) and a fixed time (fixing, and clearing and adding up the histograms). A call
 * with all pixels and one with a thousand of them tell the two apart.
 */
static void curve_rows(const char *frame, Work *w)
{
    uint8_t sample[3 * FEW_PIXELS];
    size_t pixels = w->length / 3;
    take_few(w->source, pixels, sample);
    Work few = {.source = sample, .length = sizeof sample, .choice = 1};

    w->choice = 1;
    Both all = time_both(our_curve, c_curve, w);
    Both some = time_both(our_curve, c_curve, &few);
    Both measuring = both_scaled(both_less(all, some), 1.0 / (double)(pixels - FEW_PIXELS));
    Both few_measured = both_scaled(measuring, FEW_PIXELS);
    row(frame, "measuring", pixels, both_scaled(measuring, (double)pixels), 3);
    row(frame, "fixing, cube", pixels, both_less(some, few_measured), 0);
    few.choice = 2;
    row(frame, "fixing, equalised", pixels, both_less(time_both(our_curve, c_curve, &few), few_measured), 0);
}

static void colour_rows(const char *frame, Work *w)
{
    size_t pixels = w->length / 3;
    w->choice = 1;
    our_curve(w);
    w->method = 1;
    row(frame, "colouring, method 1", pixels, time_both(our_colour, c_colour, w), 6);
    w->method = 2;
    row(frame, "colouring, method 2", pixels, time_both(our_colour, c_colour, w), 6);
    Times copy = scaled(time_one(c_copy, w), 1e9 / (double)pixels);
    printf("| %s | plain copy | | | %#.3g | %#.3g | | | %.1f |\n", frame, copy.best, copy.median, 6 / copy.best);
}

/* Measuring, fixing (the cube's curve) and colouring (method 2), as one frame takes it. */
static Both time_whole(Work *w)
{
    w->choice = 1;
    w->method = 2;
    return time_both(our_whole, c_whole, w);
}

static void whole_row(const char *frame, Both seconds)
{
    Both ms = both_scaled(seconds, 1e3);
    printf("| %s | %.2f | %.2f | %.0f %% | %.2f | %.2f | %.0f %% |\n", frame, ms.ours.best, ms.ours.median,
           100 * ms.ours.median / SLOT_MS, ms.plain.best, ms.plain.median, 100 * ms.plain.median / SLOT_MS);
}

/* ---- The tables ---- */

static void frame_tables(size_t width, size_t height, Work *w, uint8_t *source, uint8_t *expected)
{
    Both whole[FRAME_KINDS];
    printf("\n### %zu × %zu\n\n", width, height);
    printf("| frame | job | ours, best, ns | median | plain C, best, ns | median | C / ours, best | median | GB/s |\n");
    printf("|---|---|---|---|---|---|---|---|---|\n");
    w->length = 3 * width * height;
    for (enum frame_kind kind = 0; kind < FRAME_KINDS; kind++) {
        make_frame(kind, width, height, source);
        same_bytes(w, expected);
        curve_rows(frame_name(kind), w);
        colour_rows(frame_name(kind), w);
        whole[kind] = time_whole(w);
    }
    printf("\n| frame | ours, best, ms | median | share of the slot | plain C, best, ms | median | share of the slot |\n");
    printf("|---|---|---|---|---|---|---|\n");
    for (enum frame_kind kind = 0; kind < FRAME_KINDS; kind++)
        whole_row(frame_name(kind), whole[kind]);
    fflush(stdout);
}

static const size_t SIZES[] = {1, 10, 100, 1000, 1920, 10000, 100000, 1000000, 2000000, 4000000, 8000000};

enum { SIZE_COUNT = sizeof SIZES / sizeof *SIZES };

static void size_row(Work *w)
{
    size_t pixels = w->length / 3;
    w->choice = 1;
    w->method = 2;
    Both curve = both_scaled(time_both(our_curve, c_curve, w), 1e6);
    Both colour = both_scaled(time_both(our_colour, c_colour, w), 1e6);
    printf("| %zu | %.2f | %.2f | %.2f | %.2f | %.2f | %.2f | %.2f |\n", pixels, curve.ours.best, curve.ours.median,
           colour.ours.best, colour.ours.median, 1e3 * (curve.ours.best + colour.ours.best) / (double)pixels, curve.plain.best,
           colour.plain.best);
}

static void size_table(Work *w, uint8_t *source, uint8_t *expected)
{
    make_frame(REAL_LOOKING, 3840, 2160, source);
    printf("\n### By size\n\n");
    printf("| pixels | curve, best, µs | median | colour, best, µs | median | both, ns a pixel | plain C: curve | colour |\n");
    printf("|---|---|---|---|---|---|---|---|\n");
    for (size_t k = 0; k < SIZE_COUNT; k++) {
        w->length = 3 * SIZES[k];
        same_bytes(w, expected);
        size_row(w);
    }
}

/* Every kind of frame, at every size. */
static void check(Work *w, uint8_t *source, uint8_t *expected)
{
    for (enum frame_kind kind = 0; kind < FRAME_KINDS; kind++) {
        make_frame(kind, 3840, 2160, source);
        for (size_t k = 0; k < SIZE_COUNT; k++) {
            w->length = 3 * SIZES[k];
            same_bytes(w, expected);
        }
    }
    printf("bench: the library and plain C give the same bytes, on %d kinds of frame, %d sizes, both choices and both methods\n",
           (int)FRAME_KINDS, (int)SIZE_COUNT);
}

static uint8_t *picture(void)
{
    uint8_t *bytes = malloc(3 * MOST_PIXELS);
    if (bytes == NULL) {
        fprintf(stderr, "bench: no memory\n");
        exit(1);
    }
    memset(bytes, 0, 3 * MOST_PIXELS);
    return bytes;
}

int main(int count, char **arguments)
{
    int checking = count == 2 && strcmp(arguments[1], "check") == 0;
    if (count != 1 && !checking) {
        fprintf(stderr, "usage: bench [check]\n");
        return 2;
    }
    uint8_t *source = picture(), *destination = picture(), *expected = picture();
    Work w = {.source = source, .destination = destination};
    if (checking) {
        check(&w, source, expected);
        check_dial();
        return 0;
    }
    frame_tables(1920, 1080, &w, source, expected);
    frame_tables(3840, 2160, &w, source, expected);
    size_table(&w, source, expected);
    dial_table();
    return 0;
}
