/*
 * The rule by which a curve is accepted: entry 0 is 0, entry 765 is 765, none exceeds 765, none is less than the one before.
 *
 * Every place is broken by itself. Three things cannot be had alone: entry 1 cannot be less than an entry 0 that is 0; entry 765
 * cannot be 765 and less than one before that does not exceed 765; and after an entry above 765 the curve has to fall, or it ends
 * above 765.
 */
#include "calls.h"
#include "check.h"
#include "exact.h"
#include "groups.h"
#include "pixels.h"

static const uint8_t pixels[6] = {10, 20, 30, 200, 220, 90};

static void expect_number(const uint8_t *curve, uint32_t number)
{
    struct colour_call call = {curve, EXACT_CURVE_LENGTH, 2, pixels, sizeof pixels, sizeof pixels};
    if (exact_colour_number(curve, EXACT_CURVE_LENGTH, 2, sizeof pixels, sizeof pixels) != number)
        fail("exact.c does not give %u", (unsigned)number);
    try_colour(&call, number, NULL);
}

/* Sets one entry of the curve, expects 11, and puts the entry back. */
static void broken_by(uint8_t *curve, const char *name, uint32_t sum, uint32_t entry)
{
    uint32_t was = curve_entry(curve, sum);
    running("%s curve with entry %u set to %u", name, (unsigned)sum, (unsigned)entry);
    curve_set(curve, sum, entry);
    expect_number(curve, 11);
    curve_set(curve, sum, was);
}

/* A level curve with one lower entry: it falls at that place only. */
static void one_lower(uint32_t level, uint32_t sum)
{
    uint8_t curve[EXACT_CURVE_LENGTH];
    curve_level(level, curve);
    broken_by(curve, "level", sum, level - 1);
}

/* Level at 256 and at 512, the entry below has a higher low byte; at 300 only the low byte tells; at 765 and 1 the extremes. */
static void falls(void)
{
    uint8_t curve[EXACT_CURVE_LENGTH];
    curve_identity(curve);
    for (uint32_t s = 2; s < EXACT_WHITE; s++) {
        broken_by(curve, "identity", s, s - 2);
        broken_by(curve, "identity", s - 1, s + 1);
        one_lower(256, s);
        one_lower(300, s);
        one_lower(512, s);
        one_lower(765, s);
        one_lower(1, s);
    }
}

static void entries_above_765(uint8_t *curve, const char *name)
{
    for (uint32_t s = 0; s <= EXACT_WHITE; s++) {
        uint32_t was = curve_entry(curve, s);
        broken_by(curve, name, s, 766);
        broken_by(curve, name, s, 1021);
        broken_by(curve, name, s, 65535);
        /* the entry itself with further bits in its high byte */
        broken_by(curve, name, s, was + 1024);
        broken_by(curve, name, s, was + 32768);
    }
}

/* Above 765 from one place up to entry 764: nothing falls before entry 765. */
static void above_765_from(uint32_t first)
{
    uint8_t curve[EXACT_CURVE_LENGTH];
    curve_identity(curve);
    for (uint32_t s = first; s < EXACT_WHITE; s++)
        curve_set(curve, s, 766);
    running("identity curve with 766 from entry %u to 764", (unsigned)first);
    expect_number(curve, 11);
}

static void above_765(void)
{
    uint8_t curve[EXACT_CURVE_LENGTH];
    curve_identity(curve);
    entries_above_765(curve, "identity");
    curve_level(765, curve);
    entries_above_765(curve, "level");
    for (uint32_t s = 1; s < EXACT_WHITE; s++)
        above_765_from(s);
}

/* Entry 0 raised where no other entry is less. */
static void first_entry(void)
{
    static const uint32_t entries[] = {1, 2, 255, 256, 257, 512, 765};
    uint8_t curve[EXACT_CURVE_LENGTH];
    curve_level(765, curve);
    for (size_t i = 0; i < sizeof entries / sizeof entries[0]; i++)
        broken_by(curve, "level 765", 0, entries[i]);
}

/* Entry 765 changed where none before is more. */
static void last_entry(void)
{
    static const uint32_t entries[] = {764, 763, 766, 1021, 509, 510, 512, 256, 255, 253, 0};
    uint8_t curve[EXACT_CURVE_LENGTH];
    curve_level(0, curve);
    for (size_t i = 0; i < sizeof entries / sizeof entries[0]; i++)
        broken_by(curve, "level 0", EXACT_WHITE, entries[i]);
}

static void ends(void)
{
    uint8_t curve[EXACT_CURVE_LENGTH];
    first_entry();
    last_entry();
    curve_identity(curve);
    broken_by(curve, "identity", 0, 1);
    broken_by(curve, "identity", EXACT_WHITE, 764);
}

/* From one level to the next at one place: accepted, also where the low byte falls as the entry rises. */
static void steps(uint32_t low, uint32_t high)
{
    uint8_t curve[EXACT_CURVE_LENGTH];
    curve_level(high, curve);
    for (uint32_t s = 1; s < EXACT_WHITE; s++) {
        running("level %u up to entry %u, then %u", (unsigned)low, (unsigned)s, (unsigned)high);
        curve_set(curve, s, low);
        compare_colour(curve, 2, pixels, sizeof pixels);
    }
}

/* Every level, the extremes 0 and 765 among them, moves a few pixels of each sum by both methods: every sum to every target. */
static void levels(void)
{
    struct strip strip = strip_of_sums(0, EXACT_WHITE, 3);
    uint8_t curve[EXACT_CURVE_LENGTH];
    for (uint32_t target = 0; target <= EXACT_WHITE; target++) {
        running("three pixels of each sum, level %u", (unsigned)target);
        curve_level(target, curve);
        compare_colour(curve, 1, strip.bytes, strip.length);
        compare_colour(curve, 2, strip.bytes, strip.length);
    }
    strip_free(&strip);
}

static void random_breaks(void)
{
    for (int i = 0; i < 2000; i++) {
        uint8_t curve[EXACT_CURVE_LENGTH];
        uint32_t sum = draw_below(EXACT_SUMS), entry = draw_below(1024);
        running("random curve %d with entry %u set to %u", i, (unsigned)sum, (unsigned)entry);
        curve_random(curve);
        curve_set(curve, sum, entry);
        if (exact_colour_number(curve, sizeof curve, 2, sizeof pixels, sizeof pixels) == 0)
            compare_colour(curve, 2, pixels, sizeof pixels);
        else
            expect_number(curve, 11);
    }
}

void test_broken_curves(void)
{
    group_begin("broken curves");
    falls();
    above_765();
    ends();
    random_breaks();
    group_end();

    group_begin("level and stepped curves");
    steps(255, 256);
    steps(511, 512);
    steps(0, 765);
    levels();
    group_end();
}
