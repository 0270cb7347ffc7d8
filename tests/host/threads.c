/* Calls on a small stack, side by side, and one after the other. */
#define _POSIX_C_SOURCE 200809L
#include "calls.h"
#include "check.h"
#include "cube_balance.h"
#include "exact.h"
#include "groups.h"
#include "pixels.h"

#include <pthread.h>
#include <stdio.h>
#include <string.h>

enum { STACK = 64 * 1024, WORKERS = 4, ROUNDS = 400, PIXELS = 2000 };

/* A frame of its own, balanced by both calls, with what is expected. */
struct work {
    uint32_t choice, method;
    uint8_t source[3 * PIXELS], destination[3 * PIXELS], expected[3 * PIXELS];
    uint8_t curve[EXACT_CURVE_LENGTH], expected_curve[EXACT_CURVE_LENGTH];
    uint32_t curve_number, colour_number;
    unsigned wrong; /* rounds that went wrong */
    pthread_t thread;
};

static struct work works[WORKERS];

static void prepare(struct work *work, uint32_t choice, uint32_t method)
{
    uint32_t entries[EXACT_SUMS];
    struct strip strip = strip_new(PIXELS);
    work->choice = choice;
    work->method = method;
    work->wrong = 0;
    for (size_t i = 0; i < strip.length; i += 3)
        pixel_of_sum(draw_below(EXACT_SUMS), strip.bytes + i);
    memcpy(work->source, strip.bytes, strip.length);
    exact_curve(work->source, sizeof work->source, choice, entries);
    exact_to_bytes(entries, work->expected_curve);
    exact_colour(entries, method, work->source, sizeof work->source, work->expected);
    strip_free(&strip);
}

static void balance(struct work *work)
{
    memset(work->curve, 0, sizeof work->curve);
    memset(work->destination, 0, sizeof work->destination);
    work->curve_number = cube_balance_curve(work->source, sizeof work->source, work->choice, work->curve, sizeof work->curve);
    work->colour_number = cube_balance_colour(work->curve, sizeof work->curve, work->method, work->source, sizeof work->source,
                                              work->destination, sizeof work->destination);
}

static bool went_right(const struct work *work)
{
    return work->curve_number == 0 && work->colour_number == 0 &&
           memcmp(work->curve, work->expected_curve, sizeof work->curve) == 0 &&
           memcmp(work->destination, work->expected, sizeof work->destination) == 0;
}

static void must(int error, const char *what)
{
    if (error != 0)
        fail("%s: %s", what, strerror(error));
}

/* ---- A small stack ---- */

static void *balance_once(void *work)
{
    watch_in_this_thread();
    balance(work);
    return NULL;
}

/* The thread's own needs come out of the 64 KiB too, so the calls get a little less than the header promises to be enough. */
static void on_a_small_stack(uint32_t choice, uint32_t method)
{
    struct work *work = &works[0];
    struct run stack = stack_of(STACK);
    pthread_attr_t attributes;
    running("both calls on a stack of %d bytes, choice %u, method %u", (int)STACK, (unsigned)choice, (unsigned)method);
    prepare(work, choice, method);
    must(pthread_attr_init(&attributes), "pthread_attr_init");
    must(pthread_attr_setstack(&attributes, stack.bytes, stack.length), "pthread_attr_setstack");
    must(pthread_create(&work->thread, &attributes, balance_once, work), "pthread_create");
    must(pthread_join(work->thread, NULL), "pthread_join");
    count_case();
    if (!went_right(work))
        fail("the answers differ from exact.c: numbers %u and %u", (unsigned)work->curve_number, (unsigned)work->colour_number);
    printf("host: stack used, thread and all: %zu of %d bytes\n", stack_used(&stack), (int)STACK);
    must(pthread_attr_destroy(&attributes), "pthread_attr_destroy");
    run_free(&stack);
}

/* ---- Side by side ---- */

static void *balance_often(void *given)
{
    struct work *work = given;
    watch_in_this_thread();
    for (int round = 0; round < ROUNDS; round++) {
        balance(work);
        work->wrong += !went_right(work);
    }
    return NULL;
}

/* Every choice with every method. */
static void prepare_all(void)
{
    for (uint32_t i = 0; i < WORKERS; i++)
        prepare(&works[i], 1 + i % 2, 1 + i / 2);
}

static void start_all(void)
{
    for (int i = 0; i < WORKERS; i++)
        must(pthread_create(&works[i].thread, NULL, balance_often, &works[i]), "pthread_create");
}

static void join_all(void)
{
    for (int i = 0; i < WORKERS; i++)
        must(pthread_join(works[i].thread, NULL), "pthread_join");
}

static void expect_all_right(void)
{
    for (int i = 0; i < WORKERS; i++) {
        count_case();
        if (works[i].wrong != 0)
            fail("thread %d: %u of %d rounds went wrong", i, works[i].wrong, (int)ROUNDS);
    }
}

static void side_by_side(void)
{
    running("%d threads, %d rounds each", (int)WORKERS, (int)ROUNDS);
    prepare_all();
    start_all();
    join_all();
    expect_all_right();
}

/* ---- One after the other ---- */

/* What a call handed back and left in the run that it writes. */
struct answer {
    uint32_t number;
    uint8_t bytes[EXACT_CURVE_LENGTH];
};

/* Calls of all sorts: every choice and method, long and short, accepted, and refused by each number but 3 (which needs 50 MB). */
enum { CALLS = 16 };

/* What the calls read: pixels, a good curve and a broken one. */
static uint8_t pixels[3 * 500], good[EXACT_CURVE_LENGTH], broken[EXACT_CURVE_LENGTH];

static uint32_t curve_call(int i, uint8_t *to)
{
    static const struct {
        size_t length;
        uint32_t choice;
        size_t curve_length;
    } calls[] = {{1500, 1, 1532}, {1500, 2, 1532}, {6, 1, 1532}, {900, 2, 1532},
                 {6, 3, 1532},    {6, 1, 1531},    {7, 1, 1532}, {0, 1, 1532}};
    return cube_balance_curve(pixels, calls[i].length, calls[i].choice, to, calls[i].curve_length);
}

static uint32_t colour_call(int i, uint8_t *to)
{
    static const struct {
        const uint8_t *curve;
        uint32_t method;
        size_t length, to;
    } calls[] = {{good, 1, 1500, 1500}, {good, 2, 1500, 1500}, {good, 1, 9, 9}, {broken, 1, 9, 9},
                 {good, 0, 9, 9},       {good, 1, 8, 8},       {good, 2, 9, 6}, {good, 2, 0, 0}};
    return cube_balance_colour(calls[i].curve, EXACT_CURVE_LENGTH, calls[i].method, pixels, calls[i].length, to, calls[i].to);
}

static struct answer answer_of(int i)
{
    struct answer answer = {.number = 0};
    memset(answer.bytes, 0xa5, sizeof answer.bytes);
    answer.number = i < CALLS / 2 ? curve_call(i, answer.bytes) : colour_call(i - CALLS / 2, answer.bytes);
    count_case();
    return answer;
}

static void same_after(const struct answer *first, int i, int other)
{
    running("call %d before and after call %d", i, other);
    answer_of(other);
    struct answer again = answer_of(i);
    if (again.number != first->number)
        fail("the number was %u, now it is %u", (unsigned)first->number, (unsigned)again.number);
    if (memcmp(again.bytes, first->bytes, sizeof again.bytes) != 0)
        fail("the bytes written differ");
}

static void draw_pixels(void)
{
    for (size_t i = 0; i < sizeof pixels; i++)
        pixels[i] = (uint8_t)draw();
}

static void same_after_each(int i)
{
    struct answer first = answer_of(i);
    for (int other = 0; other < CALLS; other++)
        same_after(&first, i, other);
}

static void one_after_the_other(void)
{
    draw_pixels();
    curve_random(good);
    memcpy(broken, good, sizeof broken);
    curve_set(broken, 0, 1);
    for (int i = 0; i < CALLS; i++)
        same_after_each(i);
}

void test_threads(void)
{
    group_begin("small stack");
    on_a_small_stack(1, 1);
    on_a_small_stack(2, 2);
    group_end();

    group_begin("side by side");
    side_by_side();
    group_end();

    group_begin("one after the other");
    one_after_the_other();
    group_end();
}
