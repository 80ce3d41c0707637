/* The time of the quickest of many calls. To be included before any other header, since it asks for POSIX. */
#define _POSIX_C_SOURCE 199309L
#include <time.h>

static double now(void) {
    struct timespec time;
    clock_gettime(CLOCK_MONOTONIC, &time);
    return (double)time.tv_sec * 1e9 + (double)time.tv_nsec;
}

/* Nanoseconds. 0 below three calls, of which none is timed: there the instructions are counted. */
static double least(void (*call)(void), long count) {
    double quickest = 0.0;
    for (long i = 0; i < count; i++) {
        double begin = count < 3 ? 0.0 : now();
        call();
        double taken = count < 3 ? 0.0 : now() - begin;
        if (i == 0 || taken < quickest) quickest = taken;
    }
    return quickest;
}
