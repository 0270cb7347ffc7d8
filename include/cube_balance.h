/*
 * Cube balance: the two calls for the panel's host program.
 *
 * cube_balance_curve makes the tone curve of a strip of pixels, cube_balance_colour colours pixels by a curve. Each is proved to
 * hand back and to write exactly what its rules give, for all that it may be lent (crates/host/specs/Host.antt in the sources).
 *
 * Pixels are bytes, three to a pixel: red, green, blue. The intensity of a pixel is the three added, 0 to 765. A strip is a run of
 * pixels, a shot all the pixels that one curve is made of.
 *
 * Runs. A run is a pointer and a length in bytes. It is for the caller to see, and no call can check, that
 * - the runs lent to one call lie apart: a picture cannot be coloured in place;
 * - every byte of a run is there and has been set, also in a run that is only written;
 * - until the call returns, nobody else writes into its runs, or reads the one that it writes.
 * A run of length 0 is empty. Its pointer is not looked at and may be anything, NULL included. An empty strip is refused (5); an
 * empty source with an empty destination is accepted, and nothing is written.
 *
 * Calls. A call touches no byte outside its runs and writes into one of them: `curve` (cube_balance_curve) or `destination`
 * (cube_balance_colour). After a refused call that run holds what it held before. Nothing is kept from call to call, so calls may
 * run side by side in several threads, also on the same curve or source. Nothing is allocated; a call needs at most 64 KiB of stack.
 *
 * A curve travels as CUBE_BALANCE_CURVE_LENGTH bytes. It has an entry for each intensity s of a pixel, 0 to 765, entry 0 first, two
 * bytes an entry, low byte first: entry s is curve[2 * s] + 256 * curve[2 * s + 1], the target for the pixels of intensity s. A
 * curve is accepted only if entry 0 is 0, entry 765 is 765, none exceeds 765 and none is less than the one before; what
 * cube_balance_curve writes always is.
 *
 * What a colouring keeps, for every pixel written:
 * - each sample is 0 to 255, and of two channels the one no larger going in comes out no larger, so that equal ones stay equal;
 * - the intensity is at most one from the curve's entry for the input intensity;
 * - two channels differ by their input difference times one factor, give or take less than a full step; the factor, zero or more,
 *   is common to all three pairs and set by input intensity s, entry f and method alone. It is 1 for s = 0 and s = 765. Otherwise
 *   it is by Naik and Murthy f / s for f at most s and (765 - f) / (765 - s) above; by Yang and Lee, for s at most 255, f / s for f
 *   at most 255 and (765 - f) / (2 * s) above; for s from 256 to 510 as Naik and Murthy; for s above 510, f / (2 * (765 - s)) for f
 *   at most 510 and (765 - f) / (765 - s) above;
 * - of any two pixels coloured by equal curves, in whichever calls and by whichever methods, the one whose input intensity is no
 *   smaller has an intensity at most two below the other's.
 *
 * Balancing one frame by itself (a shot of several frames: lay them end to end in one strip, of at most CUBE_BALANCE_PIXEL_LIMIT
 * pixels, for its curve, and colour each by it):
 *
 *     #include "cube_balance.h"
 *
 *     uint32_t balance(const uint8_t *frame, uint8_t *balanced, size_t length)
 *     {
 *         uint8_t curve[CUBE_BALANCE_CURVE_LENGTH] = {0};
 *         uint32_t number = cube_balance_curve(frame, length, CUBE_BALANCE_CUBE, curve, sizeof curve);
 *         if (number != CUBE_BALANCE_ACCEPTED)
 *             return number;
 *         return cube_balance_colour(curve, sizeof curve, CUBE_BALANCE_YANG_LEE, frame, length, balanced, length);
 *     }
 *
 * The library is for x86-64 Linux and takes memcpy and memset from the C library.
 */
#ifndef CUBE_BALANCE_H
#define CUBE_BALANCE_H

#include <stddef.h>
#include <stdint.h>

#ifdef __cplusplus
extern "C" {
#endif

/*
 * The version. MAJOR goes up where a call gives another result for an input that was accepted, or where a program has to be changed;
 * MINOR where something is added, as inputs that are no longer refused; PATCH where neither, as for speed or words. CHANGES.md in the
 * sources says which results change. A program that depends on exact bytes can test it: #if CUBE_BALANCE_VERSION_MAJOR != 3. No call
 * hands a version back, so keep this header with the library that bin/library built beside it.
 */
#define CUBE_BALANCE_VERSION_MAJOR 3
#define CUBE_BALANCE_VERSION_MINOR 1
#define CUBE_BALANCE_VERSION_PATCH 0

/* The bytes of a curve, and the most pixels of which cube_balance_curve makes one. (Colouring has no such limit.) */
#define CUBE_BALANCE_CURVE_LENGTH 1532
#define CUBE_BALANCE_PIXEL_LIMIT 16777216

/* Curve choices. */
#define CUBE_BALANCE_CUBE 1      /* the tones spread over the RGB cube */
#define CUBE_BALANCE_EQUALISED 2 /* the tones spread evenly */

/* Methods of moving a pixel to its target. */
#define CUBE_BALANCE_NAIK_MURTHY 1
#define CUBE_BALANCE_YANG_LEE 2

/*
 * What a call hands back: accepted, or the number of the first refusal that applies. (The numbers 1, 6, 9 and 12 to 18 belong to
 * calls that C does not have.)
 */
#define CUBE_BALANCE_ACCEPTED 0
#define CUBE_BALANCE_NOT_WHOLE_PIXELS 2    /* the length of the strip, or of the source, is not a multiple of 3 */
#define CUBE_BALANCE_TOO_MANY_PIXELS 3     /* the strip has more than CUBE_BALANCE_PIXEL_LIMIT pixels */
#define CUBE_BALANCE_NO_SUCH_CHOICE 4      /* the choice is not 1 or 2 */
#define CUBE_BALANCE_NO_PIXEL 5            /* the strip is empty */
#define CUBE_BALANCE_NO_SUCH_METHOD 7      /* the method is not 1 or 2 */
#define CUBE_BALANCE_LENGTHS_DIFFER 8      /* destination and source differ in length */
#define CUBE_BALANCE_CURVE_LENGTH_WRONG 10 /* the curve's length is not CUBE_BALANCE_CURVE_LENGTH */
#define CUBE_BALANCE_CURVE_RULE_BROKEN 11  /* the curve's entries break the rule above */

/*
 * Writes the tone curve of the strip, taken as a whole shot, into `curve`. The entry for an intensity, but for 0 and 765, is made from
 * two parts of all pixels: all that are darker, and half of those that have the intensity itself. A curve's bytes do not say which
 * version made them.
 * Checked in this order: 4, 10, 2, 5, 3.
 */
uint32_t cube_balance_curve(const uint8_t *strip, size_t strip_length,
                            uint32_t choice,
                            uint8_t *curve, size_t curve_length);

/*
 * Colours every pixel of the source by the curve, and writes it at the same place of the destination.
 * Checked in this order: 10, 11, 7, 2, 8.
 */
uint32_t cube_balance_colour(const uint8_t *curve, size_t curve_length,
                             uint32_t method,
                             const uint8_t *source, size_t source_length,
                             uint8_t *destination, size_t destination_length);

#ifdef __cplusplus
}
#endif

#endif
