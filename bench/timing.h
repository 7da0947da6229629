// A benchmark's clock, and the less of two times.
#include <time.h>

static inline double seconds(void) {
    struct timespec t;
    clock_gettime(CLOCK_MONOTONIC, &t);
    return t.tv_sec + 1e-9 * t.tv_nsec;
}

static inline double least(double a, double b) {
    return a < b ? a : b;
}
