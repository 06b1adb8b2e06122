/* How the benches time, and sort what they timed. A file that includes this defines _GNU_SOURCE first, for RUSAGE_THREAD. */
#ifndef GORAVESHA_TIMING_H
#define GORAVESHA_TIMING_H

#include <sys/resource.h>
#include <time.h>

static inline double nanoseconds(void) {
  struct timespec now;
  clock_gettime(CLOCK_MONOTONIC, &now);
  return 1e9 * (double)now.tv_sec + (double)now.tv_nsec;
}

/* How often this thread was made to wait for another: what was measured meanwhile is measured again. */
static inline long interruptions(void) {
  struct rusage usage;
  getrusage(RUSAGE_THREAD, &usage);
  return usage.ru_nivcsw;
}

/* For qsort: doubles, the least first. */
static inline int ascending(const void *a, const void *b) {
  double x = *(const double *)a, y = *(const double *)b;
  return (x > y) - (x < y);
}

#endif
