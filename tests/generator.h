/* The generator of the programs beside this file: splitmix64, from the seed that the program defines as SEED. */
#ifndef GENERATOR_H
#define GENERATOR_H

#include <stddef.h>
#include <stdint.h>

static uint64_t state = SEED;

static uint64_t number(void) {
  uint64_t z = state += UINT64_C(0x9E3779B97F4A7C15);
  z = (z ^ (z >> 30)) * UINT64_C(0xBF58476D1CE4E5B9);
  z = (z ^ (z >> 27)) * UINT64_C(0x94D049BB133111EB);
  return z ^ (z >> 31);
}

static size_t below(size_t bound) { return (size_t)(number() % bound); }

static int percent(size_t share) { return below(100) < share; }

#endif
