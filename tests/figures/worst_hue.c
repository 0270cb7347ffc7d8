/* worst_hue METHOD: the worst hue move for each written chroma, over every pixel and target.

   A pixel stands here as its samples in order, min <= mid <= max, since no method looks at which channel is which. Grey pixels have no
   hue and are left out. That leaves 2,828,800 times three samples and 766 targets, for each of the two methods: 4,333,721,600 moves in all.

   In sixths of a turn hue moves by |(mid' - min') (max - min) - (mid - min) (max' - min')| / ((max - min) (max' - min')), and the bound is
   1 / (max' - min'). So a move uses as much of the bound as the numerator is of max - min. That is the hue's move because the samples stay in
   order, which each table of samples is checked for.

   Writes one line for each written chroma from 1 to 255 and each third of the sums, 1 to 255, 256 to 510 and 511 to 764 (method 2 is method 1
   in the second): the chroma, the method, the largest such part as size and max - min, and the first move that uses it. Where hue does not
   move at all, the part is 0 / 1 and the move is all zeros. Says on standard error how many moves it tried. */

#include <stdio.h>
#include <stdlib.h>

#include "exact.h"

enum { SAMPLES = 256, THIRDS = 3, SUMS_TO_A_THIRD = 255 };

struct worst {
    int size, of; /* the part of the bound */
    int min, mid, max, target;
    int written[3];
};

/* the least and the greatest sample that a pixel of sum s can have */
static int least(int s) { return s > 510 ? s - 510 : 0; }
static int greatest(int s) { return s < 255 ? s : 255; }

/* what the sample c of a pixel of sum s moves to: the other two samples do not matter, so any two serve */
static int moved_sample(uint32_t method, int s, int target, int c)
{
    int second = greatest(s - c);
    uint8_t pixel[3] = {(uint8_t)c, (uint8_t)second, (uint8_t)(s - c - second)}, moved[3];
    exact_move(method, pixel, (uint32_t)target, moved);
    return moved[0];
}

/* the same for every sample of such a pixel; they stay in order */
static void fill(int to[SAMPLES], uint32_t method, int s, int target)
{
    for (int c = least(s); c <= greatest(s); c++) {
        to[c] = moved_sample(method, s, target, c);
        if (c > least(s) && to[c] < to[c - 1])
            fprintf(stderr, "sum %d, target %d: samples out of order\n", s, target), exit(1);
    }
}

static void try_move(struct worst worst[SAMPLES], const int to[SAMPLES], int min, int mid, int max, int target)
{
    int chroma = max - min, written = to[max] - to[min];
    int size = abs((to[mid] - to[min]) * chroma - (mid - min) * written);
    struct worst *w = &worst[written];
    if (size * w->of > w->size * chroma)
        *w = (struct worst){size, chroma, min, mid, max, target, {to[min], to[mid], to[max]}};
}

/* every pixel of sum s that is not grey, moved by one table of samples; how many there are */
static long try_sum(struct worst worst[SAMPLES], const int to[SAMPLES], int s, int target)
{
    long moves = 0;
    for (int min = least(s); 3 * min < s; min++) {
        int first = s - min - 255 > min ? s - min - 255 : min;
        for (int mid = first; mid <= s - min - mid; mid++, moves++)
            try_move(worst, to, min, mid, s - min - mid, target);
    }
    return moves;
}

static long try_all(struct worst worst[THIRDS][SAMPLES], uint32_t method)
{
    long moves = 0;
    for (int s = 1; s < EXACT_WHITE; s++)
        for (int target = 0; target < EXACT_SUMS; target++) {
            int to[SAMPLES];
            fill(to, method, s, target);
            moves += try_sum(worst[(s - 1) / SUMS_TO_A_THIRD], to, s, target);
        }
    return moves;
}

static void print(const struct worst worst[SAMPLES], int method)
{
    for (int i = 1; i < SAMPLES; i++) {
        const struct worst *w = &worst[i];
        printf("%d,%d,%d,%d,%d,%d,%d,%d,%d,%d,%d\n", i, method, w->size, w->of, w->min, w->mid, w->max, w->target,
               w->written[0], w->written[1], w->written[2]);
    }
}

int main(int count, char **words)
{
    static struct worst worst[THIRDS][SAMPLES];
    int method = count == 2 ? atoi(words[1]) : 0;
    if (method != 1 && method != 2)
        return fprintf(stderr, "usage: worst_hue METHOD, 1 or 2\n"), 2;
    for (int third = 0; third < THIRDS; third++)
        for (int i = 0; i < SAMPLES; i++)
            worst[third][i].of = 1;
    fprintf(stderr, "%ld\n", try_all(worst, (uint32_t)method));
    for (int third = 0; third < THIRDS; third++)
        print(worst[third], method);
    return 0;
}
