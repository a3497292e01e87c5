/* Times and their median. What includes this has asked for POSIX before all other headers. */
#ifndef TIMES_H
#define TIMES_H

#include <stdlib.h>
#include <time.h>

/* Nanoseconds by a clock. */
static double now(clockid_t clock)
{
    struct timespec t;

    clock_gettime(clock, &t);
    return (double)t.tv_sec * 1e9 + (double)t.tv_nsec;
}

static int in_order(const void *a, const void *b)
{
    double x = *(const double *)a, y = *(const double *)b;

    return (x > y) - (x < y);
}

/* Puts them in order. */
static double median(double *times, size_t count)
{
    qsort(times, count, sizeof times[0], in_order);
    return times[count / 2];
}

#endif
