/* Every colour of the cube, 256³ pixels, by both methods and some curves, compared with exact.c. */
#include "calls.h"
#include "check.h"
#include "exact.h"
#include "groups.h"
#include "pixels.h"

enum { SIDE = 256, SLICE = SIDE * SIDE };

/* All pixels of one red. */
static void fill_slice(uint8_t *slice, uint32_t red)
{
    for (uint32_t i = 0; i < SLICE; i++) {
        slice[3 * i] = (uint8_t)red;
        slice[3 * i + 1] = (uint8_t)(i / SIDE);
        slice[3 * i + 2] = (uint8_t)(i % SIDE);
    }
}

/* The placements take turns; the other tests try both. */
static void every_colour_by(const uint8_t *curve, const char *name, uint32_t method)
{
    struct strip slice = strip_new(SLICE);
    for (uint32_t red = 0; red < SIDE; red++) {
        running("every colour of red %u, method %u, %s", (unsigned)red, (unsigned)method, name);
        fill_slice(slice.bytes, red);
        compare_colour_placed(curve, method, slice.bytes, slice.length, (enum placement)(red % PLACEMENTS));
    }
    strip_free(&slice);
}

static void every_colour(const uint8_t *curve, const char *name)
{
    every_colour_by(curve, name, 1);
    every_colour_by(curve, name, 2);
}

/* Half the sum, and halfway from the sum to white: many moved samples are halves, below and above the sum. */
static void curve_halfway_to(uint32_t sum, uint8_t *curve)
{
    for (uint32_t s = 1; s < EXACT_WHITE; s++)
        curve_set(curve, s, (s + sum) / 2);
    curve_set(curve, 0, 0);
    curve_set(curve, EXACT_WHITE, EXACT_WHITE);
}

/* The pixel limit is the curve call's alone: a colouring of one pixel more is accepted, and every pixel is written. */
static void more_than_the_limit(const uint8_t *curve)
{
    struct strip strip = strip_new((size_t)EXACT_MOST_PIXELS + 1);
    for (uint32_t red = 0; red < SIDE; red++)
        fill_slice(strip.bytes + 3 * (size_t)SLICE * red, red);
    strip.bytes[strip.length - 2] = 100;
    running("16,777,217 pixels at once");
    compare_colour_placed(curve, 1, strip.bytes, strip.length, AGAINST_THE_PAGE_ABOVE);
    strip_free(&strip);
}

void test_every_colour(void)
{
    uint8_t curve[EXACT_CURVE_LENGTH];
    group_begin("every colour");
    curve_halfway_to(0, curve);
    every_colour(curve, "halfway to black");
    curve_halfway_to(EXACT_WHITE, curve);
    every_colour(curve, "halfway to white");
    curve_random(curve);
    every_colour(curve, "random curve");
    more_than_the_limit(curve);
    group_end();
}
