/*
 * The library's two calls, and the settings of the dial, in plain, careful C, with no checks: what their speed is compared with. A loop
 * for each job, a division for each sample, as an engineer would write it down from documents 01 and 02.
 */
#ifndef PLAIN_H
#define PLAIN_H

#include <stddef.h>
#include <stdint.h>

/* How many sums three samples can have. */
enum { PLAIN_SUMS = 766 };

/* Adds the pixels of a strip to a histogram of their sums. */
void plain_count(const uint8_t *restrict strip, size_t length, uint32_t *restrict counts);

/* Writes the tone curve of a histogram with a pixel or more, as 1,532 bytes. Choice 1 is the cube's, 2 the equalised. */
void plain_fix(const uint32_t *counts, uint32_t choice, uint8_t *curve);

/* Writes the tone curve of a strip of whole pixels, one or more: counted and fixed. */
void plain_curve(const uint8_t *strip, size_t length, uint32_t choice, uint8_t *curve);

/* Colours a strip of whole pixels by a curve of 1,532 bytes. Method 1 is Naik and Murthy's, 2 Yang and Lee's. */
void plain_colour(const uint8_t *curve, uint32_t method, const uint8_t *restrict source, size_t length,
                  uint8_t *restrict destination);

/* Mixes each coloured sample with the source's by k / 256. */
void plain_blend(uint32_t k, const uint8_t *restrict source, size_t length, uint8_t *restrict destination);

/* Colours a strip, and then each sample mixed with the source's by k / 256. */
void plain_mix(const uint8_t *curve, uint32_t method, uint32_t k, const uint8_t *restrict source, size_t length,
               uint8_t *restrict destination);

/* Colours a strip with every entry held at v. */
void plain_hold(uint32_t method, uint32_t v, const uint8_t *restrict source, size_t length, uint8_t *restrict destination);

#endif
