// Draws of consecutive ranks in C, by two loops, for a comparison: bench/draws builds and runs it. Prints the shortest time of each in nanoseconds, and the
// sum of the draws' bits by exclusive or.
#include <stdint.h>
#include <stdio.h>
#include <stdlib.h>
#include <time.h>

static const uint64_t MODULUS = 18446744073709551557u;

static uint64_t sum_of(uint64_t dot, uint64_t step) {
  uint64_t room = MODULUS - step;
  return dot < room ? dot + step : dot - room;
}

static uint64_t mixed_once(uint64_t z) {
  z = 2 * z * z + z;
  return z << 32 | z >> 32;
}

// One draw after the other.
__attribute__((noinline)) static void plain(uint64_t dot, uint64_t step, unsigned rounds, uint64_t *out, size_t count) {
  for (size_t i = 0; i < count; i++) {
    uint64_t z = dot;
    for (unsigned k = 0; k < rounds; k++) z = mixed_once(z);
    out[i] = z;
    dot = sum_of(dot, step);
  }
}

// Eight draws side by side.
__attribute__((noinline)) static void lanes(uint64_t dot, uint64_t step, unsigned rounds, uint64_t *out, size_t count) {
  size_t i = 0;
  for (; i + 8 <= count; i += 8) {
    uint64_t z[8];
    for (int lane = 0; lane < 8; lane++) {
      z[lane] = dot;
      dot = sum_of(dot, step);
    }
    for (unsigned k = 0; k < rounds; k++)
      for (int lane = 0; lane < 8; lane++) z[lane] = mixed_once(z[lane]);
    for (int lane = 0; lane < 8; lane++) out[i + lane] = z[lane];
  }
  plain(dot, step, rounds, out + i, count - i);
}

static uint64_t now(void) {
  struct timespec time;
  clock_gettime(CLOCK_MONOTONIC, &time);
  return (uint64_t)time.tv_sec * 1000000000u + (uint64_t)time.tv_nsec;
}

typedef void loop(uint64_t, uint64_t, unsigned, uint64_t *, size_t);

static void timed(loop *draws, unsigned rounds, uint64_t *out, size_t count) {
  // The first coefficient of seed 0, which is also the dot product of rank 0.
  const uint64_t coefficient = 16294208416658607535u;
  uint64_t best = UINT64_MAX, sum = 0;
  for (int run = 0; run < 61; run++) {
    uint64_t began = now();
    draws(coefficient, coefficient, rounds, out, count);
    uint64_t took = now() - began;
    if (took < best) best = took;
    for (size_t i = 0; i < count; i++) sum ^= out[i];
  }
  printf("%llu %llu\n", (unsigned long long)best, (unsigned long long)sum);
}

int main(int argc, char **argv) {
  size_t count = 1 << 20;
  uint64_t *out = calloc(count, sizeof *out);
  if (argc != 2 || !out) return 1;
  timed(plain, (unsigned)atoi(argv[1]), out, count);
  timed(lanes, (unsigned)atoi(argv[1]), out, count);
  return 0;
}
