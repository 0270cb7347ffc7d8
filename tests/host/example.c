/* Runs the usage example of the header's comment, which the test runner puts into a file of its own, as C and as C++. */
#include "cube_balance.h"

#include <stdio.h>
#include <string.h>

uint32_t balance(const uint8_t *frame, uint8_t *balanced, size_t length);

int main(void)
{
    const uint8_t frame[6] = {100, 100, 100, 200, 200, 200}, expected[6] = {98, 98, 98, 157, 157, 157};
    uint8_t balanced[6] = {0, 0, 0, 0, 0, 0};
    if (balance(frame, balanced, sizeof frame) != CUBE_BALANCE_ACCEPTED || memcmp(balanced, expected, sizeof expected) != 0) {
        fprintf(stderr, "example: FAILED: document 01's two pixels were not balanced\n");
        return 1;
    }
    if (balance(frame, balanced, 4) != CUBE_BALANCE_NOT_WHOLE_PIXELS || memcmp(balanced, expected, sizeof expected) != 0) {
        fprintf(stderr, "example: FAILED: a length of 4 was not refused 2\n");
        return 1;
    }
    printf("example: ok\n");
    return 0;
}
