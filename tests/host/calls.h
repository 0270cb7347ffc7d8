/* The two calls of the library, made in guarded runs and compared byte by byte with what is expected. */
#ifndef CALLS_H
#define CALLS_H

#include "guarded.h"

#include <stddef.h>
#include <stdint.h>

struct curve_call {
    const uint8_t *strip;
    size_t strip_length;
    uint32_t choice;
    size_t curve_length;
};

struct colour_call {
    const uint8_t *curve;
    size_t curve_length;
    uint32_t method;
    const uint8_t *source;
    size_t source_length;
    size_t destination_length;
};

/*
 * Each makes the call in both placements. It fails unless the call hands back `number`; unless the run written holds `written`,
 * or, where the call is refused, still its pattern; and unless the bytes beside that run are as they were. Inputs lie in read-only
 * pages: a write to one stops the program.
 */
void try_curve(const struct curve_call *call, uint32_t number, const uint8_t *written);
void try_colour(const struct colour_call *call, uint32_t number, const uint8_t *written);

/* The same in one placement, where both would take too long. */
void try_colour_placed(const struct colour_call *call, enum placement placement, uint32_t number, const uint8_t *written);

/* The curve call in one placement on a strip that is in a run already. */
void try_curve_of_run(const struct run *strip, uint32_t choice, size_t curve_length, uint32_t number, const uint8_t *written);

/* As exact.c has it: the call must be accepted, and every byte the same. `curve`, where not NULL, receives the curve's bytes. */
void compare_curve(const uint8_t *strip, size_t length, uint32_t choice, uint8_t *curve);
void compare_colour(const uint8_t *curve, uint32_t method, const uint8_t *source, size_t length);
void compare_colour_placed(const uint8_t *curve, uint32_t method, const uint8_t *source, size_t length, enum placement placement);

/* The curve of a strip by both choices, and the strip coloured by each of them and both methods. */
void compare_strip(const uint8_t *strip, size_t length);

#endif
