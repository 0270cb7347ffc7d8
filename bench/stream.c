/*
 * Writes a real-looking picture to standard output as raw rgb24, for bench/filters.py. A high one is as good as several frames.
 *
 *     stream WIDTH HEIGHT
 */
#include "frames.h"

#include <stdio.h>
#include <stdlib.h>

int main(int count, char **arguments)
{
    size_t width = count == 3 ? strtoul(arguments[1], NULL, 10) : 0;
    size_t height = count == 3 ? strtoul(arguments[2], NULL, 10) : 0;
    uint8_t *pixels = malloc(3 * width * height + 1);
    if (width == 0 || height == 0 || pixels == NULL) {
        fprintf(stderr, "usage: stream WIDTH HEIGHT, for which there has to be memory\n");
        return 2;
    }
    make_frame(REAL_LOOKING, width, height, pixels);
    return fwrite(pixels, 3 * width, height, stdout) == height && fflush(stdout) == 0 ? 0 : 1;
}
