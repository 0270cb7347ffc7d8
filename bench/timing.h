/* What the tables say of the times of several runs. */
#ifndef TIMING_H
#define TIMING_H

/* How many runs each time is the best and the median of. */
enum { RUNS = 31 };

/* Seconds: the best of all runs, and the median. */
typedef struct {
    double best;
    double median;
} Times;

typedef struct {
    Times ours;
    Times plain;
} Both;

/* Of the times of all runs, which it sorts. */
Times times_of(double *runs);

Times scaled(Times t, double by);
Both both_scaled(Both b, double by);

/* The difference of the bests, and of the medians. */
Times less(Times a, Times b);
Both both_less(Both a, Both b);

#endif
