/*
 * The smallest program over both calls: makes the cube's curve of two pixels and colours them by it. Prints the number, 0 for
 * accepted, and the red samples.
 */
#include "cube_balance.h"

#include <stdio.h>

int main(void)
{
    const uint8_t frame[6] = {100, 100, 100, 200, 200, 200}; /* red, green, blue; red, green, blue */
    uint8_t curve[CUBE_BALANCE_CURVE_LENGTH] = {0}, balanced[6] = {0};
    uint32_t number = cube_balance_curve(frame, sizeof frame, CUBE_BALANCE_CUBE, curve, sizeof curve);
    if (number == CUBE_BALANCE_ACCEPTED)
        number = cube_balance_colour(curve, sizeof curve, CUBE_BALANCE_YANG_LEE, frame, sizeof frame, balanced, sizeof balanced);
    printf("%u: %d %d\n", (unsigned)number, balanced[0], balanced[3]);
    return number != CUBE_BALANCE_ACCEPTED;
}
