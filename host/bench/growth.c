/*
 * How cost grows: nanoseconds for a whole total and a whole readSnapshot as the number of changes since the snapshot, of items and of workers grow.
 *
 * usage: growth: prints one line for each point: curve, x, nanoseconds for a total, steps of it, nanoseconds for a readSnapshot, steps of it
 */
#define _GNU_SOURCE
#include "goravesha.h"
#include "timing.h"

#include <stdio.h>
#include <stdlib.h>

enum { REPEATS = 41 };
static uint32_t words[GORAVESHA_WORDS(64, 256, 4096)];
static goravesha_answer answer;
static size_t count;

static void accepted(uint32_t code) {
  if (code < GORAVESHA_REFUSED) return;
  fprintf(stderr, "growth: %s\n", goravesha_text(code));
  exit(EXIT_FAILURE);
}

static uint32_t run_out(uint32_t worker) {
  accepted(goravesha_finish(words, count, worker, &answer));
  return (uint32_t)answer.steps;
}

static void fill(uint32_t workers, uint32_t items, uint32_t changes) {
  count = GORAVESHA_WORDS(workers, items, 4096);
  accepted(goravesha_make(words, count, workers, items, 4096, 4, 1000, &answer));
  for (uint32_t i = 0; i < items; i++) accepted(goravesha_register(words, count, 1, 100, &answer));
  for (uint32_t round = 0; round <= changes; round++) {
    accepted(goravesha_start_take_snapshot(words, count, 0, &answer));
    run_out(0);
    for (uint32_t i = 0; i < items && round < changes; i++) {
      accepted(goravesha_start_vcas(words, count, 0, i, 1 + round % 2, 2 - round % 2, &answer));
      run_out(0);
    }
  }
}

/* The median over workers and repeats of one operation at handle 0. */
static double median_of(uint32_t workers, int total, uint32_t *steps) {
  double spent[REPEATS];
  for (int i = 0; i < REPEATS; i++) {
    int times = total ? 4 : 200;
    double from = nanoseconds();
    for (int t = 0; t < times; t++) {
      uint32_t worker = (uint32_t)t % workers;
      if (total) accepted(goravesha_start_total(words, count, worker, 1, 0, &answer));
      else accepted(goravesha_start_read_snapshot(words, count, worker, 0, 0, &answer));
      *steps = run_out(worker);
    }
    spent[i] = (nanoseconds() - from) / times;
  }
  qsort(spent, REPEATS, sizeof *spent, ascending);
  return spent[REPEATS / 2];
}

static void point(const char *curve, uint32_t x, uint32_t workers, uint32_t items, uint32_t changes) {
  uint32_t total_steps, read_steps;
  fill(workers, items, changes);
  double total = median_of(workers, 1, &total_steps), read = median_of(workers, 0, &read_steps);
  printf("%s %u %.0f %u %.1f %u\n", curve, x, total, total_steps, read, read_steps);
}

int main(void) {
  for (uint32_t changes = 0; changes <= 14; changes++) point("changes", changes, 64, 256, changes);
  for (uint32_t items = 16; items <= 256; items += 16) point("items", items, 64, items, 1);
  for (uint32_t workers = 1; workers <= 64; workers = workers == 1 ? 8 : workers + 8) point("workers", workers, workers, 256, 1);
  return EXIT_SUCCESS;
}
