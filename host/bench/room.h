/* The room that its benches share: 256 items of 8 projects; and how they check. A file that includes this defines _GNU_SOURCE first. */
#ifndef GORAVESHA_ROOM_H
#define GORAVESHA_ROOM_H

#include <stdint.h>
#include <stdio.h>
#include <stdlib.h>

#include "timing.h"

enum { ITEMS = 256, PROJECTS = 8 };

/* An item's size in MiB. */
static inline uint32_t size_of(uint32_t item) { return 100 + item; }

/* Where an item's next relink moves it to. */
static inline uint32_t next_project(uint32_t project) { return (project + 1) % PROJECTS; }

static inline double microseconds(void) { return 1e-3 * nanoseconds(); }

static inline void check(int good, const char *what) {
  if (good) return;
  fprintf(stderr, "bench: %s\n", what);
  exit(EXIT_FAILURE);
}

#endif
