#define _POSIX_C_SOURCE 200809L
#include "measure.h"

#include <stdlib.h>
#include <time.h>

#define ROUNDS 401
#define MAX_JOBS 32
/* One round of one job lasts about this long: far below a time slice, far above the clock's grain. */
#define ROUND_NS 50000.0

static double widest;

static double now_ns(void) {
  struct timespec t;
  clock_gettime(CLOCK_MONOTONIC, &t);
  return (double)t.tv_sec * 1e9 + (double)t.tv_nsec;
}

/* Nanoseconds for one of so many calls. */
static double round_of(const struct job *job, size_t calls) {
  bool well = true;
  double start = now_ns();
  for (size_t i = 0; i < calls; i++) {
    well &= job->run(job->input);
  }
  double end = now_ns();
  if (!well) {
    fail("a call failed while it was timed", "measure");
  }
  return (end - start) / (double)calls;
}

static size_t calls_for_a_round(const struct job *job) {
  double ns = round_of(job, 100);
  for (int i = 0; i < 9; i++) {
    double again = round_of(job, 100);
    ns = again < ns ? again : ns;
  }
  return ns * 10 > ROUND_NS ? 10 : (size_t)(ROUND_NS / ns);
}

static int by_size(const void *a, const void *b) {
  double x = *(const double *)a, y = *(const double *)b;
  return (x > y) - (x < y);
}

static void summarise(struct job *job, double *times) {
  qsort(times, ROUNDS, sizeof *times, by_size);
  job->low = times[ROUNDS / 4];
  job->ns = times[ROUNDS / 2];
  job->high = times[ROUNDS - 1 - ROUNDS / 4];
  double spread = (job->high - job->low) / job->ns;
  widest = spread > widest ? spread : widest;
}

void measure(struct job *jobs, size_t count) {
  static double times[MAX_JOBS][ROUNDS];
  size_t calls[MAX_JOBS] = {0};
  if (count > MAX_JOBS) {
    fail("too many jobs", "measure");
  }
  for (size_t j = 0; j < count; j++) {
    calls[j] = jobs[j].run ? calls_for_a_round(&jobs[j]) : 0;
  }
  for (size_t r = 0; r < ROUNDS; r++) {
    for (size_t j = 0; j < count; j++) {
      times[j][r] = jobs[j].run ? round_of(&jobs[j], calls[j]) : 0;
    }
  }
  for (size_t j = 0; j < count; j++) {
    if (jobs[j].run) {
      summarise(&jobs[j], times[j]);
    }
  }
}

double widest_spread(void) {
  return widest;
}
