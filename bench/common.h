/* What both benchmarks use: numbers drawn from a seed, and the time in nanoseconds.
   Relies on POSIX for the clock. */
#define _POSIX_C_SOURCE 199309L
#include <stdint.h>
#include <time.h>

static uint64_t seed = 12345;
static uint32_t draw(uint32_t n) {
    seed = seed * 6364136223846793005u + 1442695040888963407u;
    return (uint32_t)((seed >> 33) % n);
}
static double now(void) {
    struct timespec t;
    clock_gettime(CLOCK_MONOTONIC, &t);
    return t.tv_sec * 1e9 + t.tv_nsec;
}
