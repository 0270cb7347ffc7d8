/*
 * Writes the library's curve of a strip, by the choice that the argument is: standard input to standard output. It is no part of the
 * test program, but a program of its own, for the filter's tests. A strip that it has no room for is refused.
 */
#include "cube_balance.h"

#include <stdio.h>
#include <stdlib.h>

int main(int argc, char **argv)
{
    static uint8_t strip[3 * 4096 + 1]; /* no whole pixels if it is full */
    uint8_t curve[CUBE_BALANCE_CURVE_LENGTH] = {0};
    size_t length = fread(strip, 1, sizeof strip, stdin);
    uint32_t choice = argc == 2 ? (uint32_t)strtoul(argv[1], NULL, 10) : 0;
    uint32_t number = cube_balance_curve(strip, length, choice, curve, sizeof curve);
    if (number != CUBE_BALANCE_ACCEPTED) {
        fprintf(stderr, "curve: refused %u\n", (unsigned)number);
        return 1;
    }
    return fwrite(curve, 1, sizeof curve, stdout) < sizeof curve || fclose(stdout) != 0;
}
