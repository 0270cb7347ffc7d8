/*
 * A run of length 0: its pointer is not looked at. It is NULL, or lies in an unreadable page, for each run that can be empty,
 * alone and together with the others.
 */
#include "calls.h"
#include "check.h"
#include "cube_balance.h"
#include "exact.h"
#include "groups.h"
#include "pixels.h"

/* Three runs of the colour call, or two of the curve call; bit i of `empty` says that run i is empty. */
enum { STRIP = 1, CURVE_WRITTEN = 2 };
enum { CURVE = 1, SOURCE = 2, DESTINATION = 4 };

static const char *pointer_name(const uint8_t *nowhere)
{
    return nowhere == NULL ? "NULL" : "unreadable";
}

static void expect(uint32_t came, uint32_t expected)
{
    count_case();
    if (came != expected)
        fail("expected the number %u, came %u", (unsigned)expected, (unsigned)came);
}

static void expect_zeros(const char *name, const uint8_t *bytes, size_t length)
{
    for (size_t i = 0; i < length; i++)
        if (bytes[i] != 0)
            fail("refused, but byte %zu of the %s was written", i, name);
}

static void curve_call(uint8_t *nowhere, int empty, uint32_t choice)
{
    static const uint8_t pixel[3] = {1, 2, 3};
    uint8_t curve[EXACT_CURVE_LENGTH] = {0};
    const uint8_t *strip = empty & STRIP ? nowhere : pixel;
    uint8_t *written = empty & CURVE_WRITTEN ? nowhere : curve;
    size_t strip_length = empty & STRIP ? 0 : sizeof pixel, curve_length = empty & CURVE_WRITTEN ? 0 : sizeof curve;
    running("cube_balance_curve, choice %u, strip length %zu, curve length %zu, empty runs %s", (unsigned)choice, strip_length,
            curve_length, pointer_name(nowhere));
    expect(cube_balance_curve(strip, strip_length, choice, written, curve_length),
           exact_curve_number(strip_length, choice, curve_length));
    expect_zeros("curve", curve, sizeof curve);
}

static void colour_call(uint8_t *nowhere, int empty, uint32_t method)
{
    static const uint8_t pixel[3] = {1, 2, 3};
    uint8_t curve[EXACT_CURVE_LENGTH], moved[3] = {0, 0, 0};
    const uint8_t *by = empty & CURVE ? nowhere : curve, *source = empty & SOURCE ? nowhere : pixel;
    uint8_t *destination = empty & DESTINATION ? nowhere : moved;
    size_t curve_length = empty & CURVE ? 0 : sizeof curve;
    size_t source_length = empty & SOURCE ? 0 : sizeof pixel, destination_length = empty & DESTINATION ? 0 : sizeof moved;
    running("cube_balance_colour, method %u, curve length %zu, source length %zu, destination length %zu, empty runs %s",
            (unsigned)method, curve_length, source_length, destination_length, pointer_name(nowhere));
    curve_identity(curve);
    expect(cube_balance_colour(by, curve_length, method, source, source_length, destination, destination_length),
           exact_colour_number(curve, curve_length, method, source_length, destination_length));
    expect_zeros("destination", moved, sizeof moved);
}

/* At least one run is empty in each, so that none of the calls writes: an accepted one has no pixel. */
static void curve_calls(uint8_t *nowhere, uint32_t choice)
{
    for (int empty = 1; empty <= (STRIP | CURVE_WRITTEN); empty++)
        curve_call(nowhere, empty, choice);
}

static void colour_calls(uint8_t *nowhere, uint32_t method)
{
    for (int empty = 1; empty <= (CURVE | SOURCE | DESTINATION); empty++)
        colour_call(nowhere, empty, method);
}

static void all_calls(uint8_t *nowhere)
{
    for (uint32_t number = 0; number <= 3; number++) {
        curve_calls(nowhere, number);
        colour_calls(nowhere, number);
    }
}

/* A curve that breaks the rule is refused 11 also where there is no pixel to colour. */
static void broken_curve(uint8_t *nowhere)
{
    uint8_t curve[EXACT_CURVE_LENGTH];
    running("broken curve, empty source and destination %s", pointer_name(nowhere));
    curve_level(1, curve);
    curve_set(curve, 0, 1);
    expect(cube_balance_colour(curve, sizeof curve, 1, nowhere, 0, nowhere, 0), 11);
}

void test_empty_runs(void)
{
    struct run nowhere = run_of_pattern(0, AGAINST_THE_PAGE_ABOVE);
    group_begin("empty runs");
    all_calls(NULL);
    all_calls(nowhere.bytes);
    broken_curve(NULL);
    broken_curve(nowhere.bytes);
    group_end();
    run_free(&nowhere);
}
