#include "timing.h"

#include <stdlib.h>

static int by_size(const void *a, const void *b)
{
    double x = *(const double *)a, y = *(const double *)b;
    return (x > y) - (x < y);
}

Times times_of(double *runs)
{
    qsort(runs, RUNS, sizeof *runs, by_size);
    return (Times){.best = runs[0], .median = runs[RUNS / 2]};
}

Times scaled(Times t, double by)
{
    return (Times){.best = t.best * by, .median = t.median * by};
}

Both both_scaled(Both b, double by)
{
    return (Both){.ours = scaled(b.ours, by), .plain = scaled(b.plain, by)};
}

Times less(Times a, Times b)
{
    return (Times){.best = a.best - b.best, .median = a.median - b.median};
}

Both both_less(Both a, Both b)
{
    return (Both){.ours = less(a.ours, b.ours), .plain = less(a.plain, b.plain)};
}
