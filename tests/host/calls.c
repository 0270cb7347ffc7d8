#include "calls.h"

#include "check.h"
#include "cube_balance.h"
#include "exact.h"

#include <stdlib.h>
#include <string.h>

static void expect_number(const char *call, enum placement placement, uint32_t expected, uint32_t came)
{
    if (came != expected)
        fail("%s, runs %s: expected the number %u, came %u", call, placement_name(placement), (unsigned)expected, (unsigned)came);
}

static size_t first_difference(const uint8_t *a, const uint8_t *b)
{
    size_t i = 0;
    while (a[i] == b[i])
        i++;
    return i;
}

/* What must hold of a run that is written: all of it as expected, or none of it touched. */
static void expect_untouched(const char *name, const struct run *run)
{
    if (!run_is_intact(run))
        fail("refused, but the %s was written, runs %s", name, placement_name(run->placement));
}

static void expect_beside(const char *name, const struct run *run)
{
    if (!run_slack_is_intact(run))
        fail("bytes beside the %s were written, runs %s", name, placement_name(run->placement));
}

static void expect_curve(const struct run *curve, const uint8_t *written)
{
    if (memcmp(curve->bytes, written, curve->length) == 0)
        return;
    size_t i = first_difference(curve->bytes, written);
    fail("byte %zu of the curve (entry %zu), runs %s: expected %u, came %u", i, i / 2, placement_name(curve->placement),
         (unsigned)written[i], (unsigned)curve->bytes[i]);
}

static void expect_pixels(const struct colour_call *call, const struct run *destination, const uint8_t *written)
{
    if (destination->length == 0 || memcmp(destination->bytes, written, destination->length) == 0)
        return;
    size_t i = first_difference(destination->bytes, written) / 3 * 3;
    const uint8_t *from = call->source + i, *want = written + i, *came = destination->bytes + i;
    uint32_t sum = exact_sum(from);
    uint32_t target = call->curve[2 * sum] + 256u * call->curve[2 * sum + 1];
    fail("pixel %zu (%u, %u, %u), sum %u, target %u, method %u, runs %s: expected (%u, %u, %u), came (%u, %u, %u)", i / 3,
         from[0], from[1], from[2], (unsigned)sum, (unsigned)target, (unsigned)call->method,
         placement_name(destination->placement), want[0], want[1], want[2], came[0], came[1], came[2]);
}

void try_curve_of_run(const struct run *strip, uint32_t choice, size_t curve_length, uint32_t number, const uint8_t *written)
{
    struct run curve = run_of_pattern(curve_length, strip->placement);
    count_case();
    uint32_t came = cube_balance_curve(strip->bytes, strip->length, choice, curve.bytes, curve.length);
    expect_number("cube_balance_curve", strip->placement, number, came);
    if (number == 0)
        expect_curve(&curve, written);
    else
        expect_untouched("curve", &curve);
    expect_beside("curve", &curve);
    run_free(&curve);
}

static void try_curve_placed(const struct curve_call *call, enum placement placement, uint32_t number, const uint8_t *written)
{
    struct run strip = run_of(call->strip, call->strip_length, placement);
    run_make_read_only(&strip);
    try_curve_of_run(&strip, call->choice, call->curve_length, number, written);
    run_free(&strip);
}

void try_curve(const struct curve_call *call, uint32_t number, const uint8_t *written)
{
    for (int placement = 0; placement < PLACEMENTS; placement++)
        try_curve_placed(call, (enum placement)placement, number, written);
}

void try_colour_placed(const struct colour_call *call, enum placement placement, uint32_t number, const uint8_t *written)
{
    struct run curve = run_of(call->curve, call->curve_length, placement);
    struct run source = run_of(call->source, call->source_length, placement);
    struct run destination = run_of_pattern(call->destination_length, placement);
    run_make_read_only(&curve);
    run_make_read_only(&source);
    count_case();
    uint32_t came = cube_balance_colour(curve.bytes, curve.length, call->method, source.bytes, source.length, destination.bytes,
                                        destination.length);
    expect_number("cube_balance_colour", placement, number, came);
    if (number == 0)
        expect_pixels(call, &destination, written);
    else
        expect_untouched("destination", &destination);
    expect_beside("destination", &destination);
    run_free(&curve);
    run_free(&source);
    run_free(&destination);
}

void try_colour(const struct colour_call *call, uint32_t number, const uint8_t *written)
{
    for (int placement = 0; placement < PLACEMENTS; placement++)
        try_colour_placed(call, (enum placement)placement, number, written);
}

void compare_curve(const uint8_t *strip, size_t length, uint32_t choice, uint8_t *curve)
{
    struct curve_call call = {strip, length, choice, EXACT_CURVE_LENGTH};
    uint32_t entries[EXACT_SUMS];
    uint8_t bytes[EXACT_CURVE_LENGTH];
    exact_curve(strip, length, choice, entries);
    exact_to_bytes(entries, bytes);
    try_curve(&call, 0, bytes);
    if (curve != NULL)
        memcpy(curve, bytes, sizeof bytes);
}

/* The coloured strip by exact.c; for the caller to free. */
static uint8_t *coloured(const uint8_t *curve, uint32_t method, const uint8_t *source, size_t length)
{
    uint32_t entries[EXACT_SUMS];
    uint8_t *bytes = malloc(length + 1); /* one more, so that an empty strip is not NULL */
    if (bytes == NULL)
        fail("no memory for %zu bytes", length);
    exact_from_bytes(curve, entries);
    exact_colour(entries, method, source, length, bytes);
    return bytes;
}

void compare_colour(const uint8_t *curve, uint32_t method, const uint8_t *source, size_t length)
{
    struct colour_call call = {curve, EXACT_CURVE_LENGTH, method, source, length, length};
    uint8_t *written = coloured(curve, method, source, length);
    try_colour(&call, 0, written);
    free(written);
}

void compare_colour_placed(const uint8_t *curve, uint32_t method, const uint8_t *source, size_t length, enum placement placement)
{
    struct colour_call call = {curve, EXACT_CURVE_LENGTH, method, source, length, length};
    uint8_t *written = coloured(curve, method, source, length);
    try_colour_placed(&call, placement, 0, written);
    free(written);
}

void compare_strip(const uint8_t *strip, size_t length)
{
    uint8_t curve[EXACT_CURVE_LENGTH];
    for (uint32_t choice = 1; choice <= 2; choice++) {
        compare_curve(strip, length, choice, curve);
        compare_colour(curve, 1, strip, length);
        compare_colour(curve, 2, strip, length);
    }
}
