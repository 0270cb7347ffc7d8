/* Curves and colourings of many strips, compared with exact.c: the whole curve, and every byte of the coloured strip. */
#include "calls.h"
#include "check.h"
#include "exact.h"
#include "groups.h"
#include "pixels.h"

static void flat_strips(void)
{
    for (uint32_t s = 0; s <= EXACT_WHITE; s++) {
        struct strip one = strip_of_sums(s, s, 1), some = strip_of_sums(s, s, 7);
        running("flat strip of sum %u", (unsigned)s);
        compare_strip(one.bytes, one.length);
        compare_strip(some.bytes, some.length);
        strip_free(&one);
        strip_free(&some);
    }
}

static void two_tones(uint32_t dark, size_t dark_count, uint32_t bright, size_t bright_count)
{
    size_t counts[EXACT_SUMS] = {0};
    counts[dark] += dark_count;
    counts[bright] += bright_count;
    struct strip strip = strip_of_counts(counts);
    running("%zu pixels of sum %u, %zu of sum %u", dark_count, (unsigned)dark, bright_count, (unsigned)bright);
    compare_strip(strip.bytes, strip.length);
    strip_free(&strip);
}

static void two_tones_random(void)
{
    for (int i = 0; i < 300; i++)
        two_tones(draw_below(EXACT_SUMS), 1 + draw_below(40), draw_below(EXACT_SUMS), 1 + draw_below(40));
}

/* Black and white alone and with a neighbour: the ends are set whatever H says. */
static void two_tones_at_the_ends(void)
{
    two_tones(0, 1, 765, 1);
    two_tones(0, 9, 1, 1);
    two_tones(0, 1, 764, 3);
    two_tones(764, 5, 765, 1);
    two_tones(1, 1, 765, 5);
    two_tones(0, 1000, 765, 1);
    two_tones(0, 1, 765, 1000);
}

static void around(uint32_t sum)
{
    for (uint32_t first = sum - 2; first <= sum + 2; first++) {
        struct strip strip = strip_of_sums(first, first + 3, 5);
        running("sums %u to %u, five of each", (unsigned)first, (unsigned)first + 3);
        compare_strip(strip.bytes, strip.length);
        strip_free(&strip);
    }
}

static void every_sum(size_t each)
{
    struct strip strip = strip_of_sums(0, EXACT_WHITE, each);
    running("%zu pixels of each sum", each);
    compare_strip(strip.bytes, strip.length);
    strip_free(&strip);
}

enum kind { ANY, DARK, BRIGHT, GREY, COLOURED, ONE_CHANNEL, KINDS };

static uint8_t any(uint32_t from, uint32_t to)
{
    return (uint8_t)(from + draw_below(to - from + 1));
}

static void random_pixel(enum kind kind, uint8_t *pixel)
{
    uint32_t from = kind == BRIGHT ? 200 : 0, to = kind == DARK ? 60 : 255;
    for (int i = 0; i < 3; i++)
        pixel[i] = any(from, to);
    if (kind == GREY)
        pixel[1] = pixel[2] = pixel[0];
    if (kind == COLOURED)
        pixel[draw_below(3)] = draw_below(2) ? 255 : 0;
    if (kind == ONE_CHANNEL)
        pixel[0] = pixel[1] = 0;
}

static struct strip random_strip(enum kind kind, size_t count)
{
    struct strip strip = strip_new(count);
    for (size_t i = 0; i < strip.length; i += 3)
        random_pixel(kind, strip.bytes + i);
    return strip;
}

/* Mostly short ones, lengths around a page and around 1,532 bytes among them. */
static size_t random_count(void)
{
    switch (draw_below(5)) {
    case 0:
        return 1 + draw_below(8);
    case 1:
        return 1362 + draw_below(8);
    case 2:
        return 508 + draw_below(6);
    case 3:
        return 1 + draw_below(20000);
    default:
        return 1 + draw_below(600);
    }
}

static void random_strips(void)
{
    for (int i = 0; i < 400; i++) {
        enum kind kind = (enum kind)(i % KINDS);
        struct strip strip = random_strip(kind, random_count());
        running("random strip %d, kind %d, %zu pixels", i, (int)kind, strip.length / 3);
        compare_strip(strip.bytes, strip.length);
        strip_free(&strip);
    }
}

static void random_curves(void)
{
    for (int i = 0; i < 300; i++) {
        uint8_t curve[EXACT_CURVE_LENGTH];
        struct strip strip = random_strip((enum kind)(i % KINDS), 1 + draw_below(3000));
        running("random curve %d, %zu pixels", i, strip.length / 3);
        curve_random(curve);
        compare_colour(curve, 1, strip.bytes, strip.length);
        compare_colour(curve, 2, strip.bytes, strip.length);
        strip_free(&strip);
    }
}

void test_strips(void)
{
    group_begin("flat strips");
    flat_strips();
    group_end();

    group_begin("two tones, sums around 255 and 510, every sum");
    two_tones_random();
    two_tones_at_the_ends();
    around(255);
    around(510);
    every_sum(1);
    every_sum(37);
    group_end();

    group_begin("random strips");
    random_strips();
    group_end();

    group_begin("random curves");
    random_curves();
    group_end();
}
