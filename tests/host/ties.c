/*
 * Strips that make exact ties for the cube curve, and exact halves for the equalised one.
 *
 * Let h be H(s) + H(s − 1). G rises, so only neighbours can be equally far from G(765) × h / (2 × N), and k and k + 1 are where
 *
 *     N × (G(k) + G(k + 1)) = G(765) × h.
 *
 * Reduce (G(k) + G(k + 1)) / G(765) for a k: its lowest denominator is the least N with a tie at k, and its multiples are the
 * other ones. It is 1 for k = 382 (h = N: a single pixel has that at its own sum); next come 72,250 (k = 229 and 535), 88,434 (187,
 * 577), 130,050 (127, 637), 147,390 (112, 652) and so on, 329 of the 765 k up to 16,777,216 pixels. 736,950 has 17 ties at once, the
 * darkest below a million pixels among them (k = 22); 11,054,250 has 255, the darkest of all among them (k = 1), and no other N has
 * more than 85. Every N below is tried with all of its ties, which are worked out again here; each must stand in the curve as the
 * smaller k.
 *
 * h counts the pixels of sum s once and the darker ones twice. So a tie is tried in two strips. In one its sum has as many pixels of
 * its own as there is room for beside the other ties. In the other it has as few as can be: none where h is even, so that H(s) =
 * H(s − 1) = h / 2, and one where h is odd.
 */
#include "calls.h"
#include "check.h"
#include "exact.h"
#include "groups.h"
#include "pixels.h"

#include <stdio.h>

/* ---- Ties of the cube curve ---- */

/* Where a strip meets a tie, or passes close by: the h of a sum, and the entry that the curve must have there. */
struct place {
    int64_t h;
    uint32_t entry;
};

/* The places of a strip of so many pixels, the darkest first, and how far in h they lie from the ties. */
struct places {
    int64_t pixels, aside;
    unsigned count;
    struct place at[EXACT_WHITE];
};

static unsigned ties_met, ties_met_without;

/* The h that makes a tie of k and k + 1 among so many pixels; 0 if there is none. */
static int64_t tied_at(int64_t k, int64_t pixels)
{
    int64_t product = pixels * (exact_target(k) + exact_target(k + 1));
    return product % exact_target(765) == 0 ? product / exact_target(765) : 0;
}

/* One for each tie among so many pixels. At the tie and below it the entry is k, above it k + 1. */
static void find_places(int64_t pixels, int64_t aside, struct places *places)
{
    places->pixels = pixels;
    places->aside = aside;
    places->count = 0;
    for (uint32_t k = 0; k < 765; k++) {
        int64_t h = tied_at(k, pixels);
        if (h != 0)
            places->at[places->count++] = (struct place){h + aside, aside > 0 ? k + 1 : k};
    }
}

/* How many pixels of its own a place can have: half of what lies between it and the next place, or all that lies before an end. */
static int64_t room(const struct places *places, unsigned i)
{
    const struct place *place = &places->at[i];
    int64_t below = i == 0 ? place->h : (place->h - place[-1].h) / 2;
    int64_t above = i + 1 == places->count ? 2 * places->pixels - place->h : (place[1].h - place->h) / 2;
    return below < above ? below : above;
}

/* What a place gets, the most or the fewest: h is this number and 2 × H(s − 1), so both are even or both odd. */
static int64_t own_pixels(const struct places *places, unsigned i, bool most)
{
    int64_t h = places->at[i].h, all = room(places, i);
    return most ? all - (all + h) % 2 : h % 2;
}

/* The places have the sums 2, 4, 6 ... Those between bring H(s − 1) to where it has to be, and all that is left is of sum 764. */
static void lay_out(const struct places *places, bool most, size_t *counts)
{
    int64_t so_far = 0;
    for (unsigned i = 0; i < places->count; i++) {
        int64_t own = own_pixels(places, i, most);
        int64_t darker = (places->at[i].h - own) / 2;
        counts[2 * i + 1] = (size_t)(darker - so_far);
        counts[2 * i + 2] = (size_t)own;
        so_far = darker + own;
    }
    counts[764] += (size_t)(places->pixels - so_far);
}

static void expect_entries(const uint8_t *curve, const struct places *places)
{
    for (unsigned i = 0; i < places->count; i++) {
        uint32_t expected = places->at[i].entry, came = curve_entry(curve, 2 * i + 2);
        if (came != expected)
            fail("place %u: expected %u, exact.c has %u", i, (unsigned)expected, (unsigned)came);
    }
}

/* Gives the places the most or the fewest pixels of their own; hands back how many have none. */
static unsigned compare_places(const struct places *places, bool most)
{
    size_t counts[EXACT_SUMS] = {0};
    uint8_t curve[EXACT_CURVE_LENGTH];
    unsigned without = 0;
    running("%lld pixels, h %+lld from each of %u ties, %s of their own", (long long)places->pixels, (long long)places->aside,
            places->count, most ? "most" : "fewest");
    lay_out(places, most, counts);
    struct strip strip = strip_of_counts(counts);
    compare_curve(strip.bytes, strip.length, 1, curve);
    expect_entries(curve, places);
    strip_free(&strip);
    for (unsigned i = 0; i < places->count; i++)
        without += counts[2 * i + 2] == 0;
    return without;
}

static void ties_of(int64_t pixels, unsigned expected, unsigned expected_without)
{
    struct places ties;
    find_places(pixels, 0, &ties);
    running("%lld pixels", (long long)pixels);
    if (ties.count != expected)
        fail("expected %u ties, found %u", expected, ties.count);
    unsigned without = compare_places(&ties, false);
    if (without != expected_without)
        fail("expected %u ties at sums without pixels of their own, met %u", expected_without, without);
    if (compare_places(&ties, true) != 0)
        fail("there is a tie without room for pixels of its own");
    ties_met += 2 * ties.count;
    ties_met_without += without;
}

/* One step from each tie, and there is no smaller one: with N as it is, a pixel moves from above s to s, from s to below, or back. */
static void beside_ties_of(int64_t pixels, int64_t aside)
{
    struct places places;
    find_places(pixels, aside, &places);
    compare_places(&places, false);
    compare_places(&places, true);
}

static void cube_ties(void)
{
    static const struct {
        int64_t pixels;
        unsigned ties, without; /* the latter at sums without pixels of their own */
    } tried[] = {{1, 1, 0},         {2, 1, 1},         {3, 1, 0},         {10, 1, 1},          {1000, 1, 1},
                 {72250, 3, 1},     {88434, 3, 1},     {130050, 3, 1},    {144500, 3, 3},      {147390, 3, 1},
                 {216750, 5, 1},    {221085, 3, 2},    {245650, 5, 1},    {325125, 5, 2},      {368475, 5, 2},
                 {397953, 3, 2},    {442170, 9, 3},    {585225, 3, 2},    {614125, 9, 4},      {650250, 15, 5},
                 {736950, 17, 5},   {884340, 9, 9},    {1105425, 17, 8},  {1228250, 27, 9},    {1842375, 29, 14},
                 {2210850, 51, 17}, {3684750, 85, 29}, {7369500, 85, 85}, {11054250, 255, 85}};
    for (size_t i = 0; i < sizeof tried / sizeof tried[0]; i++)
        ties_of(tried[i].pixels, tried[i].ties, tried[i].without);
    beside_ties_of(144500, -1);
    beside_ties_of(144500, 1);
    beside_ties_of(736950, -1);
    beside_ties_of(736950, 1);
    beside_ties_of(884340, -1);
    beside_ties_of(884340, 1);
    printf("host: ties of the cube curve met: %u, %u of them at sums without pixels of their own\n", ties_met, ties_met_without);
}

/* ---- Halves of the equalised one: 765 × h / (2 × N) is a whole number and a half where h / (2 × N) = odd / 1530 ---- */

/* N = 765 × times and h = (2 × s + 1) × times: s + 1/2 at every sum, each with pixels of its own. */
static struct strip strip_of_halves(size_t times)
{
    return strip_of_sums(0, 764, times);
}

/* N = 1530 × times and h = (2 × s − 1) × 2 × times: s − 1/2 at every sum but 0, every second one without pixels of its own. */
static struct strip strip_of_halves_apart(size_t times)
{
    size_t counts[EXACT_SUMS] = {0};
    counts[0] = times;
    for (uint32_t s = 2; s < EXACT_WHITE; s += 2)
        counts[s] = 4 * times;
    counts[EXACT_WHITE] = times;
    return strip_of_counts(counts);
}

/* s + 1/2 comes out `above` = 1 above s, and s − 1/2 comes out as s. */
static void expect_halves_up(const uint8_t *curve, uint32_t above)
{
    for (uint32_t s = 1; s < EXACT_WHITE; s++)
        if (curve_entry(curve, s) != s + above)
            fail("entry %u is %u, not a half up", (unsigned)s, (unsigned)curve_entry(curve, s));
}

static void compare_halves(struct strip strip, uint32_t above)
{
    uint8_t curve[EXACT_CURVE_LENGTH];
    running("halves at every entry, %zu pixels", strip.length / 3);
    compare_curve(strip.bytes, strip.length, 2, curve);
    expect_halves_up(curve, above);
    strip_free(&strip);
}

static void equalised_halves(size_t times)
{
    compare_halves(strip_of_halves(times), 1);
    compare_halves(strip_of_halves_apart(times), 0);
}

void test_ties(void)
{
    group_begin("ties and halves");
    cube_ties();
    equalised_halves(1);
    equalised_halves(3);
    equalised_halves(1000);
    group_end();
}
