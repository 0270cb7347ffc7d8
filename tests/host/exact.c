#include "exact.h"

/* ---- The cube's target ---- */

int64_t exact_target(int64_t k)
{
    const int64_t cube_255 = 255 * 255 * 255;
    /* "k at most 255: k³." */
    if (k <= 255)
        return k * k * k;
    /* "k from 255 to 510: 3·255³ − 2k³ + 9·255·k² − 9·255²·k." */
    if (k <= 510)
        return 3 * cube_255 - 2 * k * k * k + 9 * 255 * k * k - 9 * 255 * 255 * k;
    /* "k at least 510: 6·255³ − (765 − k)³." */
    return 6 * cube_255 - (765 - k) * (765 - k) * (765 - k);
}

/* ---- Measuring ---- */

/* "The SUM of a pixel, written s, is the three added, 0 to 765." */
uint32_t exact_sum(const uint8_t *pixel)
{
    return (uint32_t)pixel[0] + pixel[1] + pixel[2];
}

/* "Its state is a tally of 766 counts, one for each sum, all zero when the shot is opened": the counts come in as zeros. */
static void tally(const uint8_t *strip, size_t length, int64_t *counts)
{
    for (size_t i = 0; i < length; i += 3)
        counts[exact_sum(strip + i)]++;
}

/* "H(s) is the number of measured pixels whose sum is at most s, so H(765) = N." */
static void cumulative(const int64_t *counts, int64_t *at_most)
{
    int64_t pixels = 0;
    for (int s = 0; s < EXACT_SUMS; s++) {
        pixels += counts[s];
        at_most[s] = pixels;
    }
}

/* ---- Fixing the curve ---- */

/*
 * Document 02, wish 3: "wherever the curves used H(s) / N they now use (H(s) + H(s − 1)) / (2 × N), with H(−1) = 0, for both
 * choices and exact as before." So where document 01, quoted below, has H(s) and N, the two parts of this fraction stand.
 */
struct share {
    int64_t part;  /* H(s) + H(s − 1) */
    int64_t whole; /* 2 × N */
};

static struct share share_of(const int64_t *at_most, int s)
{
    int64_t below = s == 0 ? 0 : at_most[s - 1];
    return (struct share){at_most[s] + below, 2 * at_most[765]};
}

/* "Near" means the nearest whole number, halves up, of the exact fraction: the whole part of n / d + 1 / 2. */
static int64_t near(int64_t n, int64_t d)
{
    return (2 * n + d) / (2 * d);
}

/* "the distance between N × G(k) and G(765) × H(s)": with 2 × N for N, at most 2^25, both lie below 2^52. */
static int64_t distance(struct share share, int64_t k)
{
    int64_t difference = share.whole * exact_target(k) - exact_target(765) * share.part;
    return difference < 0 ? -difference : difference;
}

/* "Choice 1, cube …: the entry for s is the k where the distance … is least. Of two equal distances the smaller k wins." */
static uint32_t cube_entry(struct share share)
{
    int64_t best = 0;
    int64_t least = distance(share, 0);
    for (int64_t k = 1; k <= 765; k++) {
        int64_t this_one = distance(share, k);
        if (this_one < least) {
            least = this_one;
            best = k;
        }
    }
    return (uint32_t)best;
}

/* "Choice 2, equalised …: the entry is 765 × H(s) / N to the nearest whole number, halves up." */
static uint32_t equalised_entry(struct share share)
{
    return (uint32_t)near(765 * share.part, share.whole);
}

void exact_curve(const uint8_t *strip, size_t length, uint32_t choice, uint32_t *entries)
{
    int64_t counts[EXACT_SUMS] = {0};
    int64_t at_most[EXACT_SUMS];
    tally(strip, length, counts);
    cumulative(counts, at_most);
    /* "Sums never measured get their entries by the same rule." An equal share gives an equal entry, not worked out again. */
    for (int s = 0; s < EXACT_SUMS; s++) {
        struct share share = share_of(at_most, s);
        if (s > 0 && share.part == share_of(at_most, s - 1).part)
            entries[s] = entries[s - 1];
        else
            entries[s] = choice == 1 ? cube_entry(share) : equalised_entry(share);
    }
    /* "In both, entry 0 is then set to 0 and entry 765 to 765 …" */
    entries[0] = 0;
    entries[765] = 765;
}

/* ---- Moving a pixel ---- */

/* "Let f be the target, c a sample, d = 255 − c, t = 765 − s." */

/* "Method 1, Naik and Murthy". */
static int64_t moved_by_naik_murthy(int64_t c, int64_t s, int64_t f)
{
    int64_t d = 255 - c;
    int64_t t = 765 - s;
    /* "f at most s: near(c × f / s)." */
    if (f <= s)
        return near(c * f, s);
    /* "f above s: 255 − near(d × (765 − f) / t)." */
    return 255 - near(d * (765 - f), t);
}

/* "Method 2, Yang and Lee". */
static int64_t moved_by_yang_lee(int64_t c, int64_t s, int64_t f)
{
    int64_t d = 255 - c;
    int64_t t = 765 - s;
    /* "s at most 255, f at most 255: near(c × f / s)." */
    if (s <= 255 && f <= 255)
        return near(c * f, s);
    /* "s at most 255, f above 255: 255 − near((765 − f) × (s − c) / (2 × s))." */
    if (s <= 255)
        return 255 - near((765 - f) * (s - c), 2 * s);
    /* "s from 256 to 510: as method 1." */
    if (s <= 510)
        return moved_by_naik_murthy(c, s, f);
    /* "s above 510, f at most 510: near(f × (t − d) / (2 × t))." */
    if (f <= 510)
        return near(f * (t - d), 2 * t);
    /* "s above 510, f above 510: 255 − near((765 − f) × d / t)." */
    return 255 - near((765 - f) * d, t);
}

static int64_t moved_sample(uint32_t method, int64_t c, int64_t s, int64_t f)
{
    /* "A pixel with s = 0 stays black and one with s = 765 stays white, for every target." */
    if (s == 0 || s == 765)
        return c;
    return method == 1 ? moved_by_naik_murthy(c, s, f) : moved_by_yang_lee(c, s, f);
}

void exact_move(uint32_t method, const uint8_t *pixel, uint32_t target, uint8_t *moved)
{
    for (int i = 0; i < 3; i++)
        moved[i] = (uint8_t)moved_sample(method, pixel[i], exact_sum(pixel), target);
}

/* "Colouring moves each source pixel to the curve's entry for its sum and writes it at the same place in the destination." */
void exact_colour(const uint32_t *entries, uint32_t method, const uint8_t *source, size_t length, uint8_t *destination)
{
    for (size_t i = 0; i < length; i += 3)
        exact_move(method, source + i, entries[exact_sum(source + i)], destination + i);
}

/* ---- The panel's host ---- */

/* "A curve travels as 1,532 bytes, entry 0 first, two bytes an entry, low byte first." */
void exact_to_bytes(const uint32_t *entries, uint8_t *bytes)
{
    for (int s = 0; s < EXACT_SUMS; s++) {
        bytes[2 * s] = (uint8_t)(entries[s] % 256);
        bytes[2 * s + 1] = (uint8_t)(entries[s] / 256);
    }
}

void exact_from_bytes(const uint8_t *bytes, uint32_t *entries)
{
    for (int s = 0; s < EXACT_SUMS; s++)
        entries[s] = bytes[2 * s] + 256u * bytes[2 * s + 1];
}

/* "none exceeds 765" */
static bool none_exceeds(const uint32_t *entries)
{
    for (int s = 0; s < EXACT_SUMS; s++)
        if (entries[s] > 765)
            return false;
    return true;
}

/* "none is less than the one before" */
static bool none_falls(const uint32_t *entries)
{
    for (int s = 1; s < EXACT_SUMS; s++)
        if (entries[s] < entries[s - 1])
            return false;
    return true;
}

bool exact_keeps_rule(const uint32_t *entries)
{
    /* "entry 0 is 0, entry 765 is 765" */
    return entries[0] == 0 && entries[765] == 765 && none_exceeds(entries) && none_falls(entries);
}

/* ---- Who can cause which refusal: "host curve 4, 10, 2, 5, 3" ---- */

uint32_t exact_curve_number(size_t strip_length, uint32_t choice, size_t curve_length)
{
    /* "4: the curve choice is not 1 or 2." */
    if (choice != 1 && choice != 2)
        return 4;
    /* "10: a curve's bytes are not 1,532 long." */
    if (curve_length != EXACT_CURVE_LENGTH)
        return 10;
    /* "2: a strip's length is not a multiple of 3." */
    if (strip_length % 3 != 0)
        return 2;
    /* "5: no pixel has been measured (for the host: an empty strip)." */
    if (strip_length == 0)
        return 5;
    /* "3: the pixels would exceed 16,777,216." */
    if (strip_length / 3 > EXACT_MOST_PIXELS)
        return 3;
    return 0;
}

/* ---- "host colour 10, 11, 7, 2, 8" ---- */

uint32_t exact_colour_number(const uint8_t *curve, size_t curve_length, uint32_t method, size_t source_length,
                             size_t destination_length)
{
    uint32_t entries[EXACT_SUMS];
    /* "10: a curve's bytes are not 1,532 long." */
    if (curve_length != EXACT_CURVE_LENGTH)
        return 10;
    /* "11: it breaks the rule above." */
    exact_from_bytes(curve, entries);
    if (!exact_keeps_rule(entries))
        return 11;
    /* "7: the method is not 1 or 2." */
    if (method != 1 && method != 2)
        return 7;
    /* "2: a strip's length is not a multiple of 3 (in colouring, the source's)." */
    if (source_length % 3 != 0)
        return 2;
    /* "8: destination and source differ in length." */
    if (destination_length != source_length)
        return 8;
    return 0;
}
