/*
 * Document 01 for the host's two calls, with document 02's rule for the curve, in plain C: what the library's answers are
 * compared with.
 *
 * Written from the documents alone and with exact integers, a comment for each of their lines. It is slow, and it takes nothing
 * from the library or its header, so that a slip in those shows.
 */
#ifndef EXACT_H
#define EXACT_H

#include <stdbool.h>
#include <stddef.h>
#include <stdint.h>

enum {
    EXACT_SUMS = 766,           /* the sums 0 to 765 */
    EXACT_WHITE = 765,          /* the largest sum */
    EXACT_CURVE_LENGTH = 1532,  /* the bytes of a curve */
    EXACT_MOST_PIXELS = 16777216
};

/* G(k), the cube's target, for k from 0 to 765. */
int64_t exact_target(int64_t k);

/* The sum of a pixel. */
uint32_t exact_sum(const uint8_t *pixel);

/* The entries of the tone curve of a strip taken as a whole shot: one pixel or more, choice 1 or 2. */
void exact_curve(const uint8_t *strip, size_t length, uint32_t choice, uint32_t *entries);

/* The pixel moved to the target, by method 1 or 2. */
void exact_move(uint32_t method, const uint8_t *pixel, uint32_t target, uint8_t *moved);

/* A strip of whole pixels coloured by the entries of a curve. */
void exact_colour(const uint32_t *entries, uint32_t method, const uint8_t *source, size_t length, uint8_t *destination);

/* A curve as it travels, and back. */
void exact_to_bytes(const uint32_t *entries, uint8_t *bytes);
void exact_from_bytes(const uint8_t *bytes, uint32_t *entries);

/* Whether the entries keep the rule by which a curve is accepted. */
bool exact_keeps_rule(const uint32_t *entries);

/* What each of the two calls hands back: 0, or the number of the first refusal that applies. */
uint32_t exact_curve_number(size_t strip_length, uint32_t choice, size_t curve_length);
uint32_t exact_colour_number(const uint8_t *curve, size_t curve_length, uint32_t method, size_t source_length,
                             size_t destination_length);

#endif
