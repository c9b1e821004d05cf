/* What the programs that time calls share: what is expected, counted; the
 * processor's time; medians. */
#ifndef SAMPLES_H
#define SAMPLES_H

enum { SAMPLES_MAX = 31 };

void expect(const char *what, int holds);

/* Processor time of this program, in nanoseconds. */
double now(void);

/* For qsort, and the middle of up to SAMPLES_MAX values. */
int rising(const void *a, const void *b);
double median(const double *of, int count);

/* Prints "N passed, M failed"; the program's status. */
int expected(void);

#endif
