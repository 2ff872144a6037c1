/* measure.h: the time of calls, in rounds that go from one call to the next, so that noise falls on all alike. */
#ifndef BENCH_MEASURE_H
#define BENCH_MEASURE_H

#include "message.h"

struct job {
  /* NULL: there is nothing to measure. */
  call *run;
  void *input;
  /* Nanoseconds for one call: the median over the rounds, and the lower and upper quartile. */
  double ns, low, high;
};

void measure(struct job *jobs, size_t count);

/* The widest quartile range of the jobs measured so far, as a part of the median. */
double widest_spread(void);

#endif
