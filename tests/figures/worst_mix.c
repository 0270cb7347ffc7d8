/* worst_mix FLOOR AMOUNT...: the worst hue move under a mix for each written chroma, over every pixel, target and method, at amounts k of k / 256.

       cc -O3 -I tests/host -o target/worst_mix tests/figures/worst_mix.c tests/host/exact.c
       target/worst_mix 0 $(seq 255 -1 1) >docs/figures/mix.csv

   searches all 255 amounts between 0, where nothing moves, and 256, the full balance (worst_hue.c): about a minute. The gate runs it for a few
   (mix.py).

   As in worst_hue.c a pixel stands here as its samples in order, min <= mid <= max, not all equal, and the size of a move is
   |(mid' - min') (max - min) - (mid - min) (max' - min')|. A move uses as much of 60 degrees / written chroma as its size is of max - min: under a
   mix that part is less than 2. Only parts above FLOOR are looked for, so 0 looks for all.

   Trying each pixel at each amount would take an hour, so those are left out that cannot be worse than what is found already. With m = mid - min
   and n = max - mid the size is |n (mid' - min') - m (max' - mid')|, and it stays the same if one multiple of c is taken from each c'. Let e(c) be
   what is left of c': then the size is at most m + n times the larger of |e(mid) - e(min)| and |e(mid) - e(max)|. Only pixels with such a pair of
   samples far enough apart are tried. Any multiple serves; the nearer it is to the slope of the samples, the fewer pixels are tried. Two kinds of
   written chromas would have the others tried for them, since their worst is small. Those from WIDE on have few pixels: they are tried all. At
   1 the size is n or m, at most max - min - 1, so that only large chromas can be worse, which few samples have so near to each other.

   Prints the columns, then one line for each written chroma from 1 to 255: the chroma, the method, the largest part as size and max - min, and a
   move that uses it. Where none is above FLOOR, the part is FLOOR / 1 and the move is all zeros. Says on standard error how many moves the
   search was over, those left out among them. */

#include <stdio.h>
#include <stdlib.h>

#include "exact.h"

enum { SAMPLES = 256, FULL = 256, WIDE = 240 };

struct worst {
    int size, of; /* the part */
    int method, min, mid, max, target, amount;
    int written[3];
};

static struct worst worst[SAMPLES];

/* of the written chromas from 2 up to each, WIDE ones left out, the one whose worst part is the smallest; 0 where there is none */
static int smallest[SAMPLES];

/* how the samples of every pixel of sum s are written */
struct table {
    int method, s, target, amount;
    int low, high;         /* the least and the greatest sample of such a pixel */
    int pixels;            /* how many there are that are not grey */
    int over, of;          /* the factor of the full balance, over / of */
    int full[SAMPLES];     /* each sample at the full balance */
    int to[SAMPLES];       /* as the mix writes it */
    int e[SAMPLES], scale; /* scale * to[c], less a multiple of c */
};

static int count_pixels(const struct table *t)
{
    int pixels = 0;
    for (int min = t->low; 3 * min < t->s; min++) {
        int first = t->s - min - 255 > min ? t->s - min - 255 : min, last = (t->s - min) / 2;
        pixels += last - first + 1;
    }
    return pixels;
}

/* the full balance: the other two samples of a pixel do not matter, so any two serve; the samples stay in order, and so do mixed ones */
static void fill(struct table *t)
{
    for (int c = t->low; c <= t->high; c++) {
        int second = t->s - c < 255 ? t->s - c : 255;
        uint8_t pixel[3] = {(uint8_t)c, (uint8_t)second, (uint8_t)(t->s - c - second)}, moved[3];
        exact_move((uint32_t)t->method, pixel, (uint32_t)t->target, moved);
        t->full[c] = moved[0];
        if (c > t->low && t->full[c] < t->full[c - 1])
            fprintf(stderr, "sum %d, target %d: samples out of order\n", t->s, t->target), exit(1);
    }
}

/* a wrong factor would make the search slow, not wrong */
static void set_factor(struct table *t)
{
    int s = t->s, f = t->target;
    if (t->method == 2 && s <= 255)
        t->over = f <= 255 ? f : 765 - f, t->of = f <= 255 ? s : 2 * s;
    else if (t->method == 2 && s > 510)
        t->over = f <= 510 ? f : 765 - f, t->of = f <= 510 ? 2 * (765 - s) : 765 - s;
    else
        t->over = f <= s ? f : 765 - f, t->of = f <= s ? s : 765 - s;
}

static void find_smallest(void)
{
    int found = 0;
    for (int i = 2; i < SAMPLES; i++) {
        if (i < WIDE && (!found || worst[i].size * worst[found].of < worst[found].size * worst[i].of))
            found = i;
        smallest[i] = found;
    }
}

static void try_pixel(const struct table *t, int min, int mid, int max)
{
    int chroma = max - min, written = t->to[max] - t->to[min];
    int size = abs((t->to[mid] - t->to[min]) * chroma - (mid - min) * written);
    struct worst *w = &worst[written];
    if (size * w->of > w->size * chroma) {
        *w = (struct worst){size, chroma, t->method, min, mid, max, t->target, t->amount, {t->to[min], t->to[mid], t->to[max]}};
        find_smallest();
    }
}

/* the pixel with these two samples, if the first is its middle one */
static void try_pair(const struct table *t, int mid, int other)
{
    int third = t->s - mid - other;
    if (third < t->low || third > t->high || third == other)
        return;
    if (other <= mid && mid <= third)
        try_pixel(t, other, mid, third);
    else if (third <= mid && mid <= other)
        try_pixel(t, third, mid, other);
}

/* the pixels with a pair of samples more than `enough` apart in e, whose least and greatest are these */
static void try_far(const struct table *t, int least, int greatest, int enough)
{
    int above[SAMPLES], below[SAMPLES], n = 0, m = 0;
    for (int c = t->low; c <= t->high; c++) {
        if (t->e[c] - least > enough)
            above[n++] = c;
        if (greatest - t->e[c] > enough)
            below[m++] = c;
    }
    for (int i = 0; i < n; i++)
        for (int j = 0; j < m; j++)
            if (t->e[above[i]] - t->e[below[j]] > enough) {
                try_pair(t, above[i], below[j]);
                try_pair(t, below[j], above[i]);
            }
}

/* the pixels of a written chroma of WIDE or more */
static void try_wide(const struct table *t)
{
    for (int min = t->low; t->to[t->high] - t->to[min] >= WIDE; min++)
        for (int max = t->high; t->to[max] - t->to[min] >= WIDE; max--) {
            int mid = t->s - min - max;
            if (min <= mid && mid <= max)
                try_pixel(t, min, mid, max);
        }
}

static void try_amount(struct table *t, int k)
{
    int least = INT32_MAX, greatest = INT32_MIN, slope = (FULL - k) * t->of + k * t->over;
    t->amount = k;
    t->scale = FULL * t->of;
    for (int c = t->low; c <= t->high; c++) {
        t->to[c] = (c * (FULL - k) + t->full[c] * k + 128) / 256;
        t->e[c] = t->scale * t->to[c] - slope * c;
        least = t->e[c] < least ? t->e[c] : least;
        greatest = t->e[c] > greatest ? t->e[c] : greatest;
    }
    if (t->to[t->high] - t->to[t->low] >= WIDE)
        try_wide(t);
    /* the least chroma that can be worse at a written chroma of 1, which is scale = slope * chroma and a difference in e */
    int chroma = worst[1].size < worst[1].of ? worst[1].of / (worst[1].of - worst[1].size) + 1 : SAMPLES;
    int open = chroma * slope <= t->scale + greatest - least ? 1 : smallest[t->to[t->high] - t->to[t->low]];
    if (!open)
        return;
    int enough = (int)((int64_t)t->scale * worst[open].size / worst[open].of);
    if (greatest - least > enough)
        try_far(t, least, greatest, enough);
}

static void print(void)
{
    printf("written chroma,method,part of 60 degrees / chroma,of,min,mid,max,target,amount,min',mid',max'\n");
    for (int i = 1; i < SAMPLES; i++) {
        const struct worst *w = &worst[i];
        printf("%d,%d,%d,%d,%d,%d,%d,%d,%d,%d,%d,%d\n", i, w->method, w->size, w->of, w->min, w->mid, w->max, w->target, w->amount,
               w->written[0], w->written[1], w->written[2]);
    }
}

int main(int count, char **words)
{
    if (count < 3)
        return fprintf(stderr, "usage: worst_mix FLOOR AMOUNT..., amounts from 0 to 256\n"), 2;
    for (int i = 0; i < SAMPLES; i++)
        worst[i] = (struct worst){.size = atoi(words[1]), .of = 1};
    find_smallest();
    int64_t moves = 0;
    for (int s = 1; s < EXACT_WHITE; s++)
        for (int method = 1; method <= 2; method++)
            for (int target = 0; target < EXACT_SUMS; target++) {
                struct table t = {.method = method, .s = s, .target = target, .low = s > 510 ? s - 510 : 0, .high = s < 255 ? s : 255};
                t.pixels = count_pixels(&t);
                fill(&t);
                set_factor(&t);
                for (int i = 2; i < count; i++, moves += t.pixels)
                    try_amount(&t, atoi(words[i]));
            }
    fprintf(stderr, "%lld\n", (long long)moves);
    print();
    return 0;
}
