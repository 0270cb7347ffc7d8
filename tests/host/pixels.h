/* Strips and curves for the tests. */
#ifndef PIXELS_H
#define PIXELS_H

#include <stddef.h>
#include <stdint.h>

struct strip {
    uint8_t *bytes;
    size_t length;
};

/* A strip of so many black pixels, and its end. */
struct strip strip_new(size_t pixels);
void strip_free(struct strip *strip);

/* A random pixel of the given sum. */
void pixel_of_sum(uint32_t sum, uint8_t *pixel);

/* A strip with counts[s] random pixels of each sum s, the darkest first. */
struct strip strip_of_counts(const size_t *counts);

/* A strip with so many random pixels of each of the sums from `first` to `last`. */
struct strip strip_of_sums(uint32_t first, uint32_t last, size_t each);

/* Curves: every entry from 1 to 764 the same; every entry its own sum; and a random one that keeps the rule. */
void curve_level(uint32_t target, uint8_t *curve);
void curve_identity(uint8_t *curve);
void curve_random(uint8_t *curve);

void curve_set(uint8_t *curve, uint32_t sum, uint32_t entry);
uint32_t curve_entry(const uint8_t *curve, uint32_t sum);

#endif
