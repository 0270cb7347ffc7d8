/*
 * Document 01's reference frames, with the curves that document 02, wish 3, gives them, as far as the two calls reach them.
 *
 * Out of reach: a target above 765 refused 9, since targets come to the host's call as entries of a curve, and a curve with an
 * entry above 765 is refused 11 (broken_curves.c); and black or white with another target than its own, since a curve keeps both
 * ends. The header of `balance` is another program's; its pixels are here.
 */
#include "calls.h"
#include "check.h"
#include "cube_balance.h"
#include "exact.h"
#include "groups.h"
#include "pixels.h"

#include <string.h>

/* The header's numbers are document 01's. */
_Static_assert(CUBE_BALANCE_CURVE_LENGTH == 1532 && CUBE_BALANCE_PIXEL_LIMIT == 16777216, "sizes");
_Static_assert(CUBE_BALANCE_CUBE == 1 && CUBE_BALANCE_EQUALISED == 2, "choices");
_Static_assert(CUBE_BALANCE_NAIK_MURTHY == 1 && CUBE_BALANCE_YANG_LEE == 2, "methods");
_Static_assert(CUBE_BALANCE_ACCEPTED == 0 && CUBE_BALANCE_NOT_WHOLE_PIXELS == 2 && CUBE_BALANCE_TOO_MANY_PIXELS == 3, "0, 2, 3");
_Static_assert(CUBE_BALANCE_NO_SUCH_CHOICE == 4 && CUBE_BALANCE_NO_PIXEL == 5 && CUBE_BALANCE_NO_SUCH_METHOD == 7, "4, 5, 7");
_Static_assert(CUBE_BALANCE_LENGTHS_DIFFER == 8 && CUBE_BALANCE_CURVE_LENGTH_WRONG == 10, "8, 10");
_Static_assert(CUBE_BALANCE_CURVE_RULE_BROKEN == 11, "11");

struct frame {
    uint32_t method;
    uint8_t pixel[3];
    uint32_t target;
    uint8_t moved[3];
};

static const struct frame single_moves[] = {
    {1, {100, 150, 200}, 300, {67, 100, 133}},
    {1, {100, 150, 200}, 600, {174, 200, 226}},
    {1, {1, 2, 3}, 3, {1, 1, 2}},
    {1, {254, 253, 252}, 762, {254, 254, 253}},
    {2, {10, 20, 30}, 120, {20, 40, 60}},
    {1, {10, 20, 30}, 120, {31, 40, 49}},
    {2, {10, 20, 30}, 405, {105, 135, 165}},
    {2, {245, 235, 225}, 360, {150, 120, 90}},
    {2, {245, 235, 225}, 645, {235, 215, 195}},
    {1, {255, 255, 0}, 255, {128, 128, 0}},
    {2, {255, 255, 0}, 255, {128, 128, 0}},
    {2, {255, 255, 1}, 255, {128, 128, 0}},
    {1, {255, 255, 1}, 255, {127, 127, 0}},
    /* "Target 765 moves": to white, by either method's lines. */
    {1, {100, 150, 200}, 765, {255, 255, 255}},
    {2, {10, 20, 30}, 765, {255, 255, 255}},
    /* "A pixel with s = 0 stays black and one with s = 765 stays white"; the target 400 reaches exact.c only, see above. */
    {1, {0, 0, 0}, 400, {0, 0, 0}},
    {2, {0, 0, 0}, 400, {0, 0, 0}},
    {1, {255, 255, 255}, 400, {255, 255, 255}},
    {2, {255, 255, 255}, 400, {255, 255, 255}},
};

/* A single move is a colouring by a curve that is the target from entry 1 to 764. */
static void single_move(const struct frame *frame)
{
    uint8_t curve[EXACT_CURVE_LENGTH], moved[3];
    struct colour_call call = {curve, sizeof curve, frame->method, frame->pixel, 3, 3};
    running("method %u, (%u, %u, %u), target %u", (unsigned)frame->method, frame->pixel[0], frame->pixel[1], frame->pixel[2],
            (unsigned)frame->target);
    curve_level(frame->target, curve);
    try_colour(&call, 0, frame->moved);
    exact_move(frame->method, frame->pixel, frame->target, moved);
    if (memcmp(moved, frame->moved, 3) != 0)
        fail("exact.c moves it to (%u, %u, %u)", moved[0], moved[1], moved[2]);
}

static void single_moves_all(void)
{
    for (size_t i = 0; i < sizeof single_moves / sizeof single_moves[0]; i++)
        single_move(&single_moves[i]);
}

/* Sets every entry from that of `first` on. */
static void curve_from(uint32_t first, uint32_t entry, uint8_t *curve)
{
    for (uint32_t s = first; s < EXACT_SUMS; s++)
        curve_set(curve, s, entry);
}

/* The curve of pixels of one sum: 0 below it, `own` at it, 765 above. */
static void curve_of_one_sum(uint32_t sum, uint32_t own, uint8_t *curve)
{
    curve_from(0, 0, curve);
    curve_from(sum, own, curve);
    curve_from(sum + 1, EXACT_WHITE, curve);
}

/*
 * "In 01's case of sums 300 and 600 the cube entries become 293 at 300, 382 from 301 to 599, 472 at 600 and 765 from 601; the
 * equalised ones at 300 and 600 become 191 and 574." Between them document 01's 383 stays.
 */
static void two_pixels(uint32_t choice, uint32_t at_300, uint32_t between, uint32_t at_600)
{
    const uint8_t strip[] = {50, 100, 150, 255, 145, 200};
    uint8_t curve[EXACT_CURVE_LENGTH];
    struct curve_call call = {strip, sizeof strip, choice, sizeof curve};
    running("sums 300 and 600, choice %u", (unsigned)choice);
    curve_from(0, 0, curve);
    curve_from(300, at_300, curve);
    curve_from(301, between, curve);
    curve_from(600, at_600, curve);
    curve_from(601, EXACT_WHITE, curve);
    try_curve(&call, 0, curve);
}

/* "In 01's flat case the cube entry at 300 becomes 382, with 765 from 301." Equalised, that entry is 765 / 2, halves up. */
static void all_of_sum_300(uint32_t choice, uint32_t own)
{
    const uint8_t strip[] = {100, 100, 100, 45, 0, 255, 200, 99, 1};
    uint8_t curve[EXACT_CURVE_LENGTH];
    struct curve_call call = {strip, sizeof strip, choice, sizeof curve};
    running("all pixels of sum 300, choice %u", (unsigned)choice);
    curve_of_one_sum(300, own, curve);
    try_curve(&call, 0, curve);
}

/* "Length 3 is measured, 4 refused 2." The curve is that of a pixel of sum 6. */
static void lengths_3_and_4(void)
{
    const uint8_t strip[] = {1, 2, 3, 4};
    uint8_t curve[EXACT_CURVE_LENGTH];
    struct curve_call three = {strip, 3, 1, sizeof curve}, four = {strip, 4, 1, sizeof curve};
    running("lengths 3 and 4");
    curve_of_one_sum(6, 382, curve);
    try_curve(&three, 0, curve);
    try_curve(&four, 2, NULL);
}

/* As many pixels as there can be, all of one sum: half of them count as below it. */
static void large_tone(void)
{
    struct strip strip = strip_of_sums(300, 300, EXACT_MOST_PIXELS);
    for (uint32_t choice = 1; choice <= 2; choice++) {
        running("16,777,216 pixels of sum 300, choice %u", (unsigned)choice);
        compare_curve(strip.bytes, strip.length, choice, NULL);
    }
    strip_free(&strip);
}

/* "From N = 16,777,215 one more pixel is measured, two are refused 3": the host's strip is the whole shot. */
static void pixel_limit(void)
{
    struct strip strip = strip_of_sums(0, EXACT_WHITE, EXACT_MOST_PIXELS / EXACT_SUMS + 1);
    struct curve_call over = {strip.bytes, 3 * (size_t)(EXACT_MOST_PIXELS + 1), 0, EXACT_CURVE_LENGTH};
    for (uint32_t choice = 1; choice <= 2; choice++) {
        running("16,777,216 pixels and one more, choice %u", (unsigned)choice);
        compare_curve(strip.bytes, 3 * (size_t)EXACT_MOST_PIXELS, choice, NULL);
        over.choice = choice;
        try_curve(&over, 3, NULL);
    }
    strip_free(&strip);
}

/* "`balance` now writes 98 three times and 157 three times": cube curve, method 2. */
static void balance_example(void)
{
    const uint8_t frame[] = {100, 100, 100, 200, 200, 200}, balanced[] = {98, 98, 98, 157, 157, 157};
    uint8_t curve[EXACT_CURVE_LENGTH];
    struct colour_call call = {curve, sizeof curve, CUBE_BALANCE_YANG_LEE, frame, sizeof frame, sizeof frame};
    running("the two pixels of `balance`");
    compare_curve(frame, sizeof frame, CUBE_BALANCE_CUBE, curve);
    try_colour(&call, 0, balanced);
}

/* The figures that document 01 gives for G, and G(0). */
static void targets(void)
{
    static const int64_t figures[][2] = {{0, 0}, {1, 1}, {255, 16581375}, {256, 16777213}, {510, 82906875}, {765, 99488250}};
    for (size_t i = 0; i < sizeof figures / sizeof figures[0]; i++)
        if (exact_target(figures[i][0]) != figures[i][1])
            fail("exact.c has another G(%d)", (int)figures[i][0]);
}

void test_frames(void)
{
    group_begin("reference frames");
    targets();
    single_moves_all();
    two_pixels(1, 293, 382, 472);
    two_pixels(2, 191, 383, 574);
    all_of_sum_300(1, 382);
    all_of_sum_300(2, 383);
    lengths_3_and_4();
    balance_example();
    group_end();

    group_begin("pixel limit");
    pixel_limit();
    large_tone();
    group_end();
}
