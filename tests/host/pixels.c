#include "pixels.h"

#include "check.h"
#include "exact.h"

#include <stdlib.h>

struct strip strip_new(size_t pixels)
{
    struct strip strip = {calloc(3 * pixels + 1, 1), 3 * pixels}; /* one more, so that an empty strip is not NULL */
    if (strip.bytes == NULL)
        fail("no memory for %zu pixels", pixels);
    return strip;
}

void strip_free(struct strip *strip)
{
    free(strip->bytes);
    strip->bytes = NULL;
}

/* A random share of `sum` for one sample, such that `others` further samples can hold the rest. */
static uint8_t share(uint32_t sum, uint32_t others)
{
    uint32_t least = sum > 255 * others ? sum - 255 * others : 0;
    uint32_t most = sum < 255 ? sum : 255;
    return (uint8_t)(least + draw_below(most - least + 1));
}

/* The sample that is drawn first may take any of the three places, so that no channel is favoured. */
void pixel_of_sum(uint32_t sum, uint8_t *pixel)
{
    uint32_t first = draw_below(3);
    uint8_t a = share(sum, 2);
    uint8_t b = share(sum - a, 1);
    pixel[first] = a;
    pixel[(first + 1) % 3] = b;
    pixel[(first + 2) % 3] = (uint8_t)(sum - a - b);
}

static size_t total_of(const size_t *counts)
{
    size_t total = 0;
    for (int s = 0; s < EXACT_SUMS; s++)
        total += counts[s];
    return total;
}

static uint8_t *put_pixels(uint8_t *to, uint32_t sum, size_t count)
{
    for (size_t i = 0; i < count; i++, to += 3)
        pixel_of_sum(sum, to);
    return to;
}

struct strip strip_of_counts(const size_t *counts)
{
    struct strip strip = strip_new(total_of(counts));
    uint8_t *to = strip.bytes;
    for (uint32_t s = 0; s < EXACT_SUMS; s++)
        to = put_pixels(to, s, counts[s]);
    return strip;
}

struct strip strip_of_sums(uint32_t first, uint32_t last, size_t each)
{
    size_t counts[EXACT_SUMS] = {0};
    for (uint32_t s = first; s <= last; s++)
        counts[s] = each;
    return strip_of_counts(counts);
}

void curve_set(uint8_t *curve, uint32_t sum, uint32_t entry)
{
    curve[2 * sum] = (uint8_t)(entry & 255);
    curve[2 * sum + 1] = (uint8_t)(entry >> 8);
}

uint32_t curve_entry(const uint8_t *curve, uint32_t sum)
{
    return curve[2 * sum] + 256u * curve[2 * sum + 1];
}

void curve_level(uint32_t target, uint8_t *curve)
{
    for (uint32_t s = 1; s < EXACT_WHITE; s++)
        curve_set(curve, s, target);
    curve_set(curve, 0, 0);
    curve_set(curve, EXACT_WHITE, EXACT_WHITE);
}

void curve_identity(uint8_t *curve)
{
    for (uint32_t s = 0; s < EXACT_SUMS; s++)
        curve_set(curve, s, s);
}

static int by_size(const void *a, const void *b)
{
    uint32_t x = *(const uint32_t *)a, y = *(const uint32_t *)b;
    return (x > y) - (x < y);
}

/* Random entries, sorted, and then the ends. */
void curve_random(uint8_t *curve)
{
    uint32_t entries[EXACT_SUMS];
    for (uint32_t s = 0; s < EXACT_SUMS; s++)
        entries[s] = draw_below(EXACT_SUMS);
    qsort(entries, EXACT_SUMS, sizeof entries[0], by_size);
    entries[0] = 0;
    entries[EXACT_WHITE] = EXACT_WHITE;
    exact_to_bytes(entries, curve);
}
