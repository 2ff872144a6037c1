/* tables.h: measured jobs as tables in Markdown. */
#ifndef BENCH_TABLES_H
#define BENCH_TABLES_H

#include "measure.h"

/* One row of a table: the same work by the codec and by its peers, or by the codec in one burst and call by call. */
enum { OURS, NETTLE, MBEDTLS, WOLFSSL, COLUMNS };
enum { BURST, CALLS, WAYS };

struct row {
  char label[64];
  struct job jobs[COLUMNS];
};

/* Measure the rows in common rounds and print them: nanoseconds, and the codec's time as a multiple of each peer's. */
void compare(const char *title, const char *work, struct row *rows, size_t count);

/* Measure the rows in common rounds and print them: nanoseconds for the 16 frames, and the burst's time as a part of
 * the calls'. */
void compare_ways(const char *title, const char *work, struct row *rows, size_t count);

/* Measure the rows in common rounds and print the codec's times alone, the quartiles beside the median. */
void alone(const char *title, const char *work, struct row *rows, size_t count);

#endif
