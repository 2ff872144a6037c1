#include "tables.h"

#include <stdio.h>

#define MAX_ROWS 10

static void measure_rows(struct row *rows, size_t count, size_t columns) {
  struct job jobs[MAX_ROWS * COLUMNS];
  if (count > MAX_ROWS) {
    fail("too many rows", "tables");
  }
  for (size_t i = 0; i < count * columns; i++) {
    jobs[i] = rows[i / columns].jobs[i % columns];
  }
  measure(jobs, count * columns);
  for (size_t i = 0; i < count * columns; i++) {
    rows[i / columns].jobs[i % columns] = jobs[i];
  }
}

static void print_time(const struct job *job) {
  if (job->run) {
    printf(" %13.0f |", job->ns);
  } else {
    printf(" %13s |", "not installed");
  }
}

static void print_ratio(double ours, double other) {
  if (ours > 0 && other > 0) {
    printf(" %11.2f |", ours / other);
  } else {
    printf(" %11s |", "-");
  }
}

static void print_title(const char *title) {
  printf("\n### %s\n\n", title);
}

void compare(const char *title, const char *work, struct row *rows, size_t count) {
  measure_rows(rows, count, COLUMNS);
  print_title(title);
  printf("| %-12s | %13s | %13s | %13s | %13s | %11s | %11s | %11s |\n", work, "nwk, ns", "nettle, ns", "mbedtls, ns",
         "wolfSSL, ns", "nwk/nettle", "nwk/mbedtls", "nwk/wolfSSL");
  printf("|--------------|--------------:|--------------:|--------------:|--------------:|------------:|------------:|"
         "------------:|\n");
  for (size_t i = 0; i < count; i++) {
    const struct job *jobs = rows[i].jobs;
    printf("| %-12s |", rows[i].label);
    for (size_t c = 0; c < COLUMNS; c++) {
      print_time(&jobs[c]);
    }
    for (size_t c = NETTLE; c < COLUMNS; c++) {
      print_ratio(jobs[OURS].ns, jobs[c].ns);
    }
    printf("\n");
  }
}

void compare_ways(const char *title, const char *work, struct row *rows, size_t count) {
  measure_rows(rows, count, WAYS);
  print_title(title);
  printf("| %-20s | %13s | %13s | %11s |\n", work, "one burst, ns", "16 calls, ns", "burst/calls");
  printf("|----------------------|--------------:|--------------:|------------:|\n");
  for (size_t i = 0; i < count; i++) {
    const struct job *jobs = rows[i].jobs;
    printf("| %-20s |", rows[i].label);
    print_time(&jobs[BURST]);
    print_time(&jobs[CALLS]);
    print_ratio(jobs[BURST].ns, jobs[CALLS].ns);
    printf("\n");
  }
}

void alone(const char *title, const char *work, struct row *rows, size_t count) {
  measure_rows(rows, count, 1);
  print_title(title);
  printf("| %-60s | %8s | %14s | %14s |\n", work, "ns", "lower quartile", "upper quartile");
  printf("|--------------------------------------------------------------|---------:|---------------:|---------------:|"
         "\n");
  for (size_t i = 0; i < count; i++) {
    const struct job *job = &rows[i].jobs[OURS];
    printf("| %-60s | %8.0f | %14.0f | %14.0f |\n", rows[i].label, job->ns, job->low, job->high);
  }
}
