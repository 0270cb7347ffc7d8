/*
 * Every refusal number alone and in every pair that can occur together, as document 01 orders them.
 *
 * Each value of an argument is listed with the refusals that it alone gives cause for. All combinations are tried; the first
 * cause in the call's order is the number expected. At the end every number and every possible pair must have been met.
 */
#include "calls.h"
#include "check.h"
#include "cube_balance.h"
#include "exact.h"
#include "groups.h"
#include "pixels.h"

#include <stdio.h>
#include <string.h>

#define CAUSE(number) (1u << (number))
#define COUNT(table) (sizeof(table) / sizeof((table)[0]))

enum { CAUSES = 5, NUMBERS = 12, LIMIT_LENGTH = 3 * EXACT_MOST_PIXELS };

static const uint32_t curve_order[CAUSES] = {4, 10, 2, 5, 3};
static const uint32_t colour_order[CAUSES] = {10, 11, 7, 2, 8};

struct value {
    size_t value;
    unsigned causes;
};

/* 256 + 1, 256 + 2 and so on show where a number is cut to fewer bits. */
static const struct value choices[] = {
    {1, 0}, {2, 0}, {0, CAUSE(4)}, {3, CAUSE(4)}, {256, CAUSE(4)}, {257, CAUSE(4)}, {258, CAUSE(4)}, {65537, CAUSE(4)},
    {65538, CAUSE(4)}, {16777217, CAUSE(4)}, {2147483649u, CAUSE(4)}, {UINT32_MAX, CAUSE(4)}, {UINT32_MAX - 1, CAUSE(4)},
};

static const struct value curve_lengths[] = {
    {1532, 0}, {0, CAUSE(10)}, {1, CAUSE(10)}, {766, CAUSE(10)}, {1530, CAUSE(10)}, {1531, CAUSE(10)}, {1533, CAUSE(10)},
    {1534, CAUSE(10)}, {3064, CAUSE(10)},
};

static const struct value strip_lengths[] = {
    {3, 0}, {6, 0}, {0, CAUSE(5)}, {1, CAUSE(2)}, {2, CAUSE(2)}, {4, CAUSE(2)}, {5, CAUSE(2)}, {1532, CAUSE(2)},
    {LIMIT_LENGTH + 3, CAUSE(3)}, {LIMIT_LENGTH + 4, CAUSE(3) | CAUSE(2)}, {LIMIT_LENGTH + 5, CAUSE(3) | CAUSE(2)},
};

static const struct value source_lengths[] = {
    {0, 0}, {3, 0}, {6, 0}, {9, 0}, {1, CAUSE(2)}, {2, CAUSE(2)}, {4, CAUSE(2)}, {5, CAUSE(2)}, {7, CAUSE(2)},
};

static unsigned long met[NUMBERS][NUMBERS]; /* how often two causes came together; on the diagonal, how often one came alone */
static unsigned long met_none;

/* The first cause in the call's order; 0 if there is none. */
static uint32_t first_cause(const uint32_t *order, unsigned causes)
{
    for (int i = 0; i < CAUSES; i++)
        if (causes & CAUSE(order[i]))
            return order[i];
    return 0;
}

static void note_pairs_with(const uint32_t *order, int i, unsigned causes)
{
    for (int j = i + 1; j < CAUSES; j++)
        if (causes & CAUSE(order[j]))
            met[order[i]][order[j]]++;
}

static void note(const uint32_t *order, unsigned causes)
{
    if (causes == 0)
        met_none++;
    for (int i = 0; i < CAUSES; i++) {
        if (causes == CAUSE(order[i]))
            met[order[i]][order[i]]++;
        if (causes & CAUSE(order[i]))
            note_pairs_with(order, i, causes);
    }
}

/* Fails unless the pair was met, or cannot be; prints how often. */
static void expect_met(uint32_t a, uint32_t b, bool possible)
{
    unsigned long count = met[a][b];
    if (possible && count == 0)
        fail("the causes %u and %u were never met together", (unsigned)a, (unsigned)b);
    if (!possible && count > 0)
        fail("the causes %u and %u cannot be met together, but were", (unsigned)a, (unsigned)b);
    if (a == b)
        printf(" %u:%lu", (unsigned)a, count);
    else if (possible)
        printf(" %u+%u:%lu", (unsigned)a, (unsigned)b, count);
}

typedef bool possible_pair(uint32_t a, uint32_t b);

static void expect_met_with(const uint32_t *order, int i, possible_pair *possible)
{
    for (int j = i; j < CAUSES; j++)
        expect_met(order[i], order[j], possible(order[i], order[j]));
}

static void expect_all_met(const char *call, const uint32_t *order, possible_pair *possible)
{
    if (met_none == 0)
        fail("%s was never accepted", call);
    printf("host: %s, causes met: none:%lu", call, met_none);
    for (int i = 0; i < CAUSES; i++)
        expect_met_with(order, i, possible);
    printf("\n");
}

static void forget_met(void)
{
    memset(met, 0, sizeof met);
    met_none = 0;
}

/* ---- The curve call ---- */

/* An empty strip (5) is a multiple of 3 long (not 2) and has no pixel too many (not 3). All other pairs can occur. */
static bool curve_pair_possible(uint32_t a, uint32_t b)
{
    return !((a == 2 && b == 5) || (a == 5 && b == 3));
}

static void curve_case(const struct run *strip, const struct value *choice, const struct value *length, unsigned strip_causes)
{
    unsigned causes = choice->causes | length->causes | strip_causes;
    uint32_t number = first_cause(curve_order, causes);
    uint32_t entries[EXACT_SUMS];
    uint8_t written[EXACT_CURVE_LENGTH];
    running("choice %zu, curve length %zu, strip length %zu", choice->value, length->value, strip->length);
    if (exact_curve_number(strip->length, (uint32_t)choice->value, length->value) != number)
        fail("the tables and exact.c differ");
    if (number == 0) {
        exact_curve(strip->bytes, strip->length, (uint32_t)choice->value, entries);
        exact_to_bytes(entries, written);
    }
    try_curve_of_run(strip, (uint32_t)choice->value, length->value, number, written);
    note(curve_order, causes);
}

static void curve_cases_of_choice(const struct run *strip, unsigned strip_causes, const struct value *choice)
{
    for (size_t i = 0; i < COUNT(curve_lengths); i++)
        curve_case(strip, choice, &curve_lengths[i], strip_causes);
}

static void curve_cases_of_strip(const struct value *strip_length, enum placement placement)
{
    struct run strip = run_of_pattern(strip_length->value, placement);
    run_make_read_only(&strip);
    for (size_t i = 0; i < COUNT(choices); i++)
        curve_cases_of_choice(&strip, strip_length->causes, &choices[i]);
    run_free(&strip);
}

static void curve_refusals(void)
{
    group_begin("refusals of cube_balance_curve");
    forget_met();
    for (size_t i = 0; i < COUNT(strip_lengths); i++) {
        curve_cases_of_strip(&strip_lengths[i], AGAINST_THE_PAGE_ABOVE);
        curve_cases_of_strip(&strip_lengths[i], AGAINST_THE_PAGE_BELOW);
    }
    expect_all_met("cube_balance_curve", curve_order, curve_pair_possible);
    group_end();
}

/* ---- The colour call ---- */

/* All pairs can occur. A curve of a wrong length (10) has entries as far as its bytes go, and these can break the rule (11). */
static bool colour_pair_possible(uint32_t a, uint32_t b)
{
    (void)a;
    (void)b;
    return true;
}

struct curve {
    uint8_t bytes[2 * EXACT_CURVE_LENGTH];
    size_t length;
    unsigned causes;
};

/* A good curve twice in a row, cut to the length; where broken, entry 0 is 1, which a single byte shows already. */
static struct curve curve_of(const struct value *length, bool broken)
{
    struct curve curve = {.length = length->value, .causes = length->causes | (broken ? CAUSE(11) : 0)};
    curve_level(256, curve.bytes);
    curve_level(256, curve.bytes + EXACT_CURVE_LENGTH);
    curve_set(curve.bytes, 0, broken ? 1 : 0);
    return curve;
}

static void colour_case(const struct curve *curve, const struct value *method, const struct value *source, size_t destination)
{
    static const uint8_t pixels[9] = {10, 20, 30, 250, 240, 255, 100, 200, 90};
    struct colour_call call = {curve->bytes, curve->length, (uint32_t)method->value, pixels, source->value, destination};
    /* the table of choices serves for methods too; its cause is then 7 */
    unsigned causes = curve->causes | (method->causes ? CAUSE(7) : 0) | source->causes;
    uint32_t entries[EXACT_SUMS];
    uint8_t written[9];
    if (destination != source->value)
        causes |= CAUSE(8);
    uint32_t number = first_cause(colour_order, causes);
    running("curve length %zu%s, method %u, source length %zu, destination length %zu", call.curve_length,
            curve->causes & CAUSE(11) ? " (broken)" : "", (unsigned)call.method, call.source_length, destination);
    if (exact_colour_number(call.curve, call.curve_length, call.method, call.source_length, destination) != number)
        fail("the tables and exact.c differ");
    if (number == 0) {
        exact_from_bytes(curve->bytes, entries);
        exact_colour(entries, call.method, pixels, source->value, written);
    }
    try_colour(&call, number, written);
    note(colour_order, causes);
}

/* The destination as long as the source, empty, a byte or a pixel longer, and, where there is as much, shorter. */
static void colour_cases_of_source(const struct curve *curve, const struct value *method, const struct value *source)
{
    size_t length = source->value;
    colour_case(curve, method, source, length);
    colour_case(curve, method, source, length + 1);
    colour_case(curve, method, source, length + 3);
    if (length >= 1)
        colour_case(curve, method, source, 0);
    if (length >= 2)
        colour_case(curve, method, source, length - 1);
    if (length >= 4)
        colour_case(curve, method, source, length - 3);
}

static void colour_cases_of_method(const struct curve *curve, const struct value *method)
{
    for (size_t i = 0; i < COUNT(source_lengths); i++)
        colour_cases_of_source(curve, method, &source_lengths[i]);
}

static void colour_cases_of_curve(const struct value *length, bool broken)
{
    struct curve curve = curve_of(length, broken);
    for (size_t i = 0; i < COUNT(choices); i++)
        colour_cases_of_method(&curve, &choices[i]);
}

static void colour_refusals(void)
{
    group_begin("refusals of cube_balance_colour");
    forget_met();
    for (size_t i = 0; i < COUNT(curve_lengths); i++) {
        colour_cases_of_curve(&curve_lengths[i], false);
        if (curve_lengths[i].value > 0)
            colour_cases_of_curve(&curve_lengths[i], true);
    }
    expect_all_met("cube_balance_colour", colour_order, colour_pair_possible);
    group_end();
}

/* ---- Lengths that do not fit in 32 bits ---- */

#define BEYOND ((size_t)1 << 32)

/* Cut to 32 bits, each length would get another number. The long run is read-only: a refused call writes nothing. */
static void long_strip(size_t length, uint32_t number)
{
    struct run strip = run_of_zeros(length);
    running("strip length %zu", length);
    try_curve_of_run(&strip, 1, EXACT_CURVE_LENGTH, number, NULL);
    run_free(&strip);
}

static void expect_refused(uint32_t came, uint32_t number)
{
    count_case();
    if (came != number)
        fail("expected the number %u, came %u", (unsigned)number, (unsigned)came);
}

static void long_curve(void)
{
    static const uint8_t pixel[3] = {1, 2, 3};
    struct run curve = run_of_zeros(BEYOND + EXACT_CURVE_LENGTH), destination = run_of_zeros(3);
    running("curve length %zu", curve.length);
    expect_refused(cube_balance_curve(pixel, 3, 1, curve.bytes, curve.length), 10);
    expect_refused(cube_balance_colour(curve.bytes, curve.length, 1, pixel, 3, destination.bytes, 3), 10);
    run_free(&curve);
    run_free(&destination);
}

static void long_destination(void)
{
    static const uint8_t pixel[3] = {1, 2, 3};
    uint8_t curve[EXACT_CURVE_LENGTH];
    struct run destination = run_of_zeros(BEYOND + 3);
    running("destination length %zu", destination.length);
    curve_identity(curve);
    expect_refused(cube_balance_colour(curve, sizeof curve, 1, pixel, 3, destination.bytes, destination.length), 8);
    run_free(&destination);
}

static void long_source(void)
{
    uint8_t curve[EXACT_CURVE_LENGTH];
    struct run source = run_of_zeros(BEYOND + 5), destination = run_of_zeros(5);
    running("source length %zu", source.length);
    curve_identity(curve);
    expect_refused(cube_balance_colour(curve, sizeof curve, 1, source.bytes, BEYOND + 3, destination.bytes, 3), 2);
    expect_refused(cube_balance_colour(curve, sizeof curve, 1, source.bytes, BEYOND + 5, destination.bytes, 5), 8);
    run_free(&source);
    run_free(&destination);
}

static void long_lengths(void)
{
    group_begin("lengths beyond 32 bits");
    long_strip(BEYOND, 2);
    long_strip(BEYOND + 3, 2);
    long_strip(BEYOND + 5, 3);
    long_strip(3 * BEYOND, 3);
    long_strip(3 * BEYOND + 3, 3);
    long_curve();
    long_destination();
    long_source();
    group_end();
}

void test_refusals(void)
{
    curve_refusals();
    colour_refusals();
    long_lengths();
}
