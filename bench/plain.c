#include "plain.h"

enum { SUMS = PLAIN_SUMS, WHITE = 765 };

/* The nearest whole number to n / d, halves up. */
static uint32_t near(uint32_t n, uint32_t d)
{
    return (2 * n + d) / (2 * d);
}

static uint64_t near_wide(uint64_t n, uint64_t d)
{
    return (2 * n + d) / (2 * d);
}

/* ---- Measuring ---- */

void plain_count(const uint8_t *restrict strip, size_t length, uint32_t *restrict counts)
{
    for (size_t i = 0; i < length; i += 3)
        counts[strip[i] + strip[i + 1] + strip[i + 2]]++;
}

/* ---- Fixing ---- */

/* A sum's share, part[s] / whole, counts all darker pixels and half of its own, in halves of a pixel. Hands back the whole. */
static uint64_t shares(const uint32_t *counts, uint64_t *part)
{
    uint64_t pixels = 0;
    for (uint32_t s = 0; s < SUMS; s++) {
        part[s] = 2 * pixels + counts[s];
        pixels += counts[s];
    }
    return 2 * pixels;
}

static uint64_t target(uint64_t k)
{
    const uint64_t cube = 255 * 255 * 255;
    if (k <= 255)
        return k * k * k;
    if (k <= 510)
        return 3 * cube + 9 * 255 * k * k - 9 * 255 * 255 * k - 2 * k * k * k;
    return 6 * cube - (WHITE - k) * (WHITE - k) * (WHITE - k);
}

/* The aims do not fall, so the place is looked for from the last one on. Of two equal distances the smaller k wins. */
static void cube_entries(const uint64_t *part, uint64_t whole, uint16_t *entries)
{
    uint64_t targets[SUMS];
    for (uint64_t k = 0; k < SUMS; k++)
        targets[k] = whole * target(k);
    uint32_t k = 0;
    for (uint32_t s = 0; s < SUMS; s++) {
        uint64_t aim = target(WHITE) * part[s];
        while (k < WHITE && targets[k + 1] <= aim)
            k++;
        entries[s] = (uint16_t)(k < WHITE && targets[k + 1] - aim < aim - targets[k] ? k + 1 : k);
    }
}

static void equalised_entries(const uint64_t *part, uint64_t whole, uint16_t *entries)
{
    for (uint32_t s = 0; s < SUMS; s++)
        entries[s] = (uint16_t)near_wide(WHITE * part[s], whole);
}

void plain_fix(const uint32_t *counts, uint32_t choice, uint8_t *curve)
{
    uint64_t part[SUMS];
    uint64_t whole = shares(counts, part);
    uint16_t entries[SUMS];
    if (choice == 1)
        cube_entries(part, whole, entries);
    else
        equalised_entries(part, whole, entries);
    entries[0] = 0;
    entries[WHITE] = WHITE;
    for (uint32_t s = 0; s < SUMS; s++) {
        curve[2 * s] = (uint8_t)(entries[s] % 256);
        curve[2 * s + 1] = (uint8_t)(entries[s] / 256);
    }
}

void plain_curve(const uint8_t *strip, size_t length, uint32_t choice, uint8_t *curve)
{
    uint32_t counts[SUMS] = {0};
    plain_count(strip, length, counts);
    plain_fix(counts, choice, curve);
}

/* ---- Colouring ---- */

/* The cases are told apart once a pixel, and each then has three divisions: up from black, near(x × n / d) for x above `from` … */
static void up(const uint8_t *pixel, uint32_t from, uint32_t n, uint32_t d, uint8_t *moved)
{
    for (int k = 0; k < 3; k++)
        moved[k] = (uint8_t)near((pixel[k] - from) * n, d);
}

/* … or down from white, 255 − near(x × n / d) for x below `from`. */
static void down(const uint8_t *pixel, uint32_t from, uint32_t n, uint32_t d, uint8_t *moved)
{
    for (int k = 0; k < 3; k++)
        moved[k] = (uint8_t)(255 - near((from - pixel[k]) * n, d));
}

/* A pixel of sum s, moved to f by Naik and Murthy. */
static void naik_murthy(uint32_t s, uint32_t f, const uint8_t *pixel, uint8_t *moved)
{
    if (f <= s)
        up(pixel, 0, f, s, moved);
    else
        down(pixel, 255, WHITE - f, WHITE - s, moved);
}

/* The same by Yang and Lee. */
static void yang_lee(uint32_t s, uint32_t f, const uint8_t *pixel, uint8_t *moved)
{
    uint32_t t = WHITE - s;
    if (s <= 255 && f <= 255)
        up(pixel, 0, f, s, moved);
    else if (s <= 255)
        down(pixel, s, WHITE - f, 2 * s, moved);
    else if (s <= 510)
        naik_murthy(s, f, pixel, moved);
    else if (f <= 510)
        up(pixel, s - 510, f, 2 * t, moved);
    else
        down(pixel, 255, WHITE - f, t, moved);
}

/* Called with a constant method, so that the loop does not ask for it at each pixel. Black and white stay. */
static inline void colour_by(uint32_t method, const uint16_t *entries, const uint8_t *restrict source, size_t length,
                             uint8_t *restrict destination)
{
    for (size_t i = 0; i < length; i += 3) {
        uint32_t s = (uint32_t)source[i] + source[i + 1] + source[i + 2];
        if (s == 0 || s == WHITE)
            up(source + i, 0, 1, 1, destination + i);
        else if (method == 1)
            naik_murthy(s, entries[s], source + i, destination + i);
        else
            yang_lee(s, entries[s], source + i, destination + i);
    }
}

static void colour_entries(uint32_t method, const uint16_t *entries, const uint8_t *restrict source, size_t length,
                           uint8_t *restrict destination)
{
    if (method == 1)
        colour_by(1, entries, source, length, destination);
    else
        colour_by(2, entries, source, length, destination);
}

void plain_colour(const uint8_t *curve, uint32_t method, const uint8_t *restrict source, size_t length,
                  uint8_t *restrict destination)
{
    uint16_t entries[SUMS];
    for (uint32_t s = 0; s < SUMS; s++)
        entries[s] = (uint16_t)(curve[2 * s] + 256 * curve[2 * s + 1]);
    colour_entries(method, entries, source, length, destination);
}

/* ---- The dial ---- */

void plain_blend(uint32_t k, const uint8_t *restrict source, size_t length, uint8_t *restrict destination)
{
    for (size_t i = 0; i < length; i++)
        destination[i] = (uint8_t)((source[i] * (256 - k) + destination[i] * k + 128) / 256);
}

void plain_mix(const uint8_t *curve, uint32_t method, uint32_t k, const uint8_t *restrict source, size_t length,
               uint8_t *restrict destination)
{
    plain_colour(curve, method, source, length, destination);
    plain_blend(k, source, length, destination);
}

void plain_hold(uint32_t method, uint32_t v, const uint8_t *restrict source, size_t length, uint8_t *restrict destination)
{
    uint16_t entries[SUMS];
    for (uint32_t s = 0; s < SUMS; s++)
        entries[s] = (uint16_t)v;
    colour_entries(method, entries, source, length, destination);
}
