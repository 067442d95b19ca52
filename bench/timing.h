/* The median of several times of one thing. */
#ifndef TIMING_H
#define TIMING_H

#include <malloc.h>
#include <stdlib.h>
#include <time.h>

/* From now on memory that was freed is kept for the next run, and not given back to the system. */
static inline void keep_memory(void) {
    mallopt(M_MMAP_THRESHOLD, 1 << 30);
    mallopt(M_TRIM_THRESHOLD, 1 << 30);
    mallopt(M_TOP_PAD, 64 << 20);
}

static inline double clock_of(clockid_t clock) {
    struct timespec time;
    clock_gettime(clock, &time);
    return (double)time.tv_sec + 1e-9 * (double)time.tv_nsec;
}

static inline double now(void) { return clock_of(CLOCK_MONOTONIC); }

/* A moment by both clocks: the time that passes, and the thread's processor time. */
struct moment {
    double passed, used;
};

static inline struct moment moment(void) {
    return (struct moment){now(), clock_of(CLOCK_THREAD_CPUTIME_ID)};
}

/* The lesser of both times since the moment, so that other work on the machine is not charged to a call that it interrupts. */
static inline double since(struct moment begin) {
    struct moment end = moment();
    double passed = end.passed - begin.passed, used = end.used - begin.used;
    return passed < used ? passed : used;
}

static inline int by_size(const void *one, const void *two) {
    double a = *(const double *)one, b = *(const double *)two;
    return (a > b) - (a < b);
}

static inline double median(double *times, int count) {
    qsort(times, (size_t)count, sizeof *times, by_size);
    return times[count / 2];
}

#endif
