/* The groups of tests; each is a file. */
#ifndef GROUPS_H
#define GROUPS_H

void test_frames(void);
void test_refusals(void);
void test_broken_curves(void);
void test_empty_runs(void);
void test_strips(void);
void test_ties(void);
void test_every_colour(void);
void test_threads(void);

#endif
