/* How long a call takes: the library's, that of the plain C as gcc and as clang compile it, and a memcpy of one image, which is the floor that all are held
 * beside. All are timed in one run, so that a machine that is busy or changes its speed does the same to each.
 *
 * The time of a call also depends, by up to a fifth, on where the stack lies beside the images, modulo 4,096 bytes, and that differs from run to run. So
 * everything is timed with the stack at a number of depths, spread over 4,096 bytes: the best round counts at each depth, and of these the mean. */
#ifndef TIMING_H
#define TIMING_H

enum { LIBRARY, GCC, CLANG, MEMCPY, RUNNERS };

/* Nanoseconds by a clock that only goes forward. */
double now(void);

/* What two readings of the clock are apart with nothing between them. */
double reading(void);

/* Nanoseconds for one call: a round of calls by a runner, on the table's subject k. */
typedef double timed_round(const void *table, int runner, int k);

/* Rounds of each runner in turn, on each subject in turn, at each depth in turn, so many times over. mean[k] has what a call takes on subject k. */
#define MOST_SUBJECTS 16
#define MOST_DEPTHS 64
void take_times(double mean[][RUNNERS], timed_round *timed, const void *table, int subjects, int depths, int rounds);

#endif
