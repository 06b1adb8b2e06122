/*
 * Each start, the steps of each operation, totals over 256 items, and abandons: the proved archive against its C twin, in one run, turn about.
 *
 * usage: calls [pairs]         prints for each job the median of the ratios archive/twin, their quartiles, and nanoseconds a call
 *        calls -1 JOB SIDE     runs one job some times on one side alone (0 archive, 1 twin), for callgrind; prints its number of calls
 */
#define _GNU_SOURCE
#include "timing.h"
#include "twin.h"

#include <inttypes.h>
#include <stdio.h>
#include <stdlib.h>
#include <string.h>

struct side {
  uint32_t (*make)(uint32_t *, size_t, uint32_t, uint32_t, uint32_t, uint32_t, uint32_t, goravesha_answer *);
  uint32_t (*registers)(uint32_t *, size_t, uint32_t, uint32_t, goravesha_answer *);
  uint32_t (*vread)(uint32_t *, size_t, uint32_t, uint32_t, goravesha_answer *);
  uint32_t (*vcas)(uint32_t *, size_t, uint32_t, uint32_t, uint32_t, uint32_t, goravesha_answer *);
  uint32_t (*take_snapshot)(uint32_t *, size_t, uint32_t, goravesha_answer *);
  uint32_t (*read_snapshot)(uint32_t *, size_t, uint32_t, uint32_t, uint32_t, goravesha_answer *);
  uint32_t (*total)(uint32_t *, size_t, uint32_t, uint32_t, uint32_t, goravesha_answer *);
  uint32_t (*step)(uint32_t *, size_t, uint32_t, goravesha_answer *);
  uint32_t (*abandon)(uint32_t *, size_t, uint32_t, goravesha_answer *);
  uint32_t *words;
  uint64_t changes; /* that each item has had, the last one to project changes % 2 */
};

enum { WORKERS = 64, ITEMS = 256, NODES = 4096, PROJECTS = 8 };
static const size_t COUNT = GORAVESHA_WORDS(WORKERS, ITEMS, NODES);
static uint32_t space[2][GORAVESHA_WORDS(64, 256, 4096)];
static goravesha_answer answer;

static struct side sides[2] = {
  {goravesha_make, goravesha_register, goravesha_start_vread, goravesha_start_vcas, goravesha_start_take_snapshot, goravesha_start_read_snapshot,
   goravesha_start_total, goravesha_step, goravesha_abandon, space[0], 0},
  {twin_make, twin_register, twin_start_vread, twin_start_vcas, twin_start_take_snapshot, twin_start_read_snapshot, twin_start_total, twin_step,
   twin_abandon, space[1], 0},
};

/* Steps of a worker until it is done; how many. */
static uint64_t run_out(struct side *s, uint32_t worker) {
  uint64_t steps = 1;
  while (s->step(s->words, COUNT, worker, &answer) == GORAVESHA_RUNNING) steps++;
  return steps;
}

static void change(struct side *s, uint32_t item, uint32_t old, uint32_t new) {
  s->vcas(s->words, COUNT, 0, item, old, new, &answer);
  run_out(s, 0);
}

static void snapshot(struct side *s) {
  s->take_snapshot(s->words, COUNT, 0, &answer);
  run_out(s, 0);
}

/* 256 items of project 1, handle 0, and then so many changes to each, a handle after each round. */
static void fill(struct side *s, uint64_t changes) {
  s->make(s->words, COUNT, WORKERS, ITEMS, NODES, PROJECTS, UINT32_MAX - 1, &answer);
  for (uint32_t item = 0; item < ITEMS; item++) s->registers(s->words, COUNT, 1, 100 + item, &answer);
  snapshot(s);
  for (uint64_t i = 0; i < changes; i++) {
    for (uint32_t item = 0; item < ITEMS; item++) change(s, item, 1 + i % 2, 2 - i % 2);
    snapshot(s);
  }
  s->changes = changes;
}

static void fill_0(struct side *s) { fill(s, 0); }
static void fill_1(struct side *s) { fill(s, 1); }
static void fill_10(struct side *s) { fill(s, 10); }

static void make_idle(struct side *s) { memset(s->words + 16, 0, 16 * WORKERS * sizeof *s->words); }

/* What is made ready before each run and is not timed. */
static void ready_vread(struct side *s) {
  for (uint32_t w = 0; w < WORKERS; w++) s->vread(s->words, COUNT, w, w, &answer);
}
static void ready_take(struct side *s) {
  for (uint32_t w = 0; w < WORKERS; w++) s->take_snapshot(s->words, COUNT, w, &answer);
}
static void ready_read(struct side *s) {
  for (uint32_t w = 0; w < WORKERS; w++) s->read_snapshot(s->words, COUNT, w, w, 0, &answer);
}
static void ready_total(struct side *s) {
  for (uint32_t w = 0; w < 4; w++) s->total(s->words, COUNT, w, 1, 0, &answer);
}
/* Items 0 to 63 change once more; a fresh catalogue when nodes run short. */
static void ready_change(struct side *s) {
  if (s->words[7] + WORKERS > NODES) fill(s, 0);
  uint32_t from = 1 + s->changes % 2;
  for (uint32_t w = 0; w < WORKERS; w++) s->vcas(s->words, COUNT, w, w, from, 3 - from, &answer);
  s->changes++;
}
static void ready_unequal(struct side *s) {
  for (uint32_t w = 0; w < WORKERS; w++) s->vcas(s->words, COUNT, w, w, 5, 6, &answer);
}
/* Each worker stands before line 46 and holds a node; an abandon gives it back. */
static void ready_held(struct side *s) {
  for (uint32_t w = 0; w < WORKERS; w++) s->vcas(s->words, COUNT, w, w, 1, 2, &answer);
  for (uint32_t w = 0; w < WORKERS; w++)
    for (int i = 0; i < 4; i++) s->step(s->words, COUNT, w, &answer);
}
/* Workers 32 to 63 stand before line 46, and each has lost to another. */
static void ready_lost(struct side *s) {
  if (s->words[7] + WORKERS > NODES) fill(s, 0);
  uint32_t from = 1 + s->changes % 2;
  for (uint32_t w = 0; w < WORKERS; w++) s->vcas(s->words, COUNT, w, w % 32, from, 3 - from, &answer);
  for (uint32_t w = 0; w < WORKERS; w++)
    for (int i = 0; i < 4; i++) s->step(s->words, COUNT, w, &answer);
  for (uint32_t w = 0; w < 32; w++) run_out(s, w);
  s->changes++;
}

/* What is timed; each answers how many calls it made. */
static uint64_t start_vread(struct side *s) { ready_vread(s); return WORKERS; }
static uint64_t start_vcas(struct side *s) { ready_unequal(s); return WORKERS; }
static uint64_t start_take(struct side *s) { ready_take(s); return WORKERS; }
static uint64_t start_read(struct side *s) { ready_read(s); return WORKERS; }
static uint64_t start_total(struct side *s) {
  for (uint32_t w = 0; w < WORKERS; w++) s->total(s->words, COUNT, w, 1, 0, &answer);
  return WORKERS;
}
static uint64_t step_all(struct side *s) {
  uint64_t calls = 0;
  for (uint32_t w = 0; w < WORKERS; w++) calls += run_out(s, w);
  return calls;
}
static uint64_t step_lost(struct side *s) {
  uint64_t calls = 0;
  for (uint32_t w = 32; w < WORKERS; w++) calls += run_out(s, w);
  return calls;
}
static uint64_t step_four(struct side *s) {
  uint64_t calls = 0;
  for (uint32_t w = 0; w < 4; w++) calls += run_out(s, w);
  return calls;
}

static void ready_totals(struct side *s) {
  start_total(s);
  for (uint32_t w = 0; w < WORKERS; w++) s->step(s->words, COUNT, w, &answer);
}
static uint64_t abandon_all(struct side *s) {
  for (uint32_t w = 0; w < WORKERS; w++) s->abandon(s->words, COUNT, w, &answer);
  return WORKERS;
}

static const struct job {
  const char *name;
  void (*fill)(struct side *);
  void (*ready)(struct side *);
  uint64_t (*run)(struct side *);
} jobs[] = {
  {"start vRead", fill_0, make_idle, start_vread},
  {"start vCAS", fill_0, make_idle, start_vcas},
  {"start takeSnapshot", fill_0, make_idle, start_take},
  {"start readSnapshot", fill_0, make_idle, start_read},
  {"start total", fill_0, make_idle, start_total},
  {"step vRead", fill_0, ready_vread, step_all},
  {"step vCAS that changes", fill_0, ready_change, step_all},
  {"step vCAS of another value", fill_0, ready_unequal, step_all},
  {"step vCAS that loses, from 46", fill_0, ready_lost, step_lost},
  {"step takeSnapshot", fill_0, ready_take, step_all},
  {"step readSnapshot, no change since", fill_0, ready_read, step_all},
  {"step readSnapshot, 10 changes since", fill_10, ready_read, step_all},
  {"step total, 256 items, no change", fill_0, ready_total, step_four},
  {"step total, 256 items, 1 change each", fill_1, ready_total, step_four},
  {"step total, 256 items, 10 changes each", fill_10, ready_total, step_four},
  {"abandon of a vRead, no node held", fill_0, ready_vread, abandon_all},
  {"abandon of a total, no node held", fill_0, ready_totals, abandon_all},
  {"abandon at 46, a node held", fill_0, ready_held, abandon_all},
  {"abandon of an idle worker, refused", fill_0, make_idle, abandon_all},
};
enum { JOBS = sizeof jobs / sizeof *jobs };

static uint64_t calls_made;

/* So many runs of a job on one side: the nanoseconds of the timed parts. */
static double timed(const struct job *job, struct side *s, int runs) {
  double spent = 0;
  calls_made = 0;
  for (int i = 0; i < runs; i++) {
    job->ready(s);
    double from = nanoseconds();
    calls_made += job->run(s);
    spent += nanoseconds() - from;
  }
  return spent;
}

static double at_share(double *sorted, int count, double share) { return sorted[(int)(share * (count - 1) + 0.5)]; }

static void compare(const struct job *job, int pairs) {
  double *ratio = malloc((size_t)pairs * sizeof *ratio), *archive = malloc((size_t)pairs * sizeof *archive), *twin = malloc((size_t)pairs * sizeof *twin);
  for (int which = 0; which < 2; which++) job->fill(&sides[which]);
  int runs = 1;
  while (timed(job, &sides[0], runs) + timed(job, &sides[1], runs) < 1000000) runs *= 2;
  for (int i = 0, tries = 0; i < pairs; tries++) {
    double spent[2];
    uint64_t calls[2];
    long before = interruptions();
    for (int turn = 0; turn < 2; turn++) {
      int which = (turn + tries) % 2;
      spent[which] = timed(job, &sides[which], runs);
      calls[which] = calls_made;
    }
    if (calls[0] != calls[1] || memcmp(space[0], space[1], sizeof space[0]) != 0) {
      fprintf(stderr, "calls: %s: the two sides differ\n", job->name);
      exit(EXIT_FAILURE);
    }
    if (interruptions() != before && tries < 20 * pairs) continue;
    archive[i] = spent[0] / (double)calls[0];
    twin[i] = spent[1] / (double)calls[1];
    ratio[i] = archive[i] / twin[i];
    i++;
  }
  qsort(ratio, (size_t)pairs, sizeof *ratio, ascending);
  qsort(archive, (size_t)pairs, sizeof *archive, ascending);
  qsort(twin, (size_t)pairs, sizeof *twin, ascending);
  printf("%-40s ratio %.2f (quartiles %.2f to %.2f)  archive %5.2f ns a call  twin %5.2f\n", job->name, at_share(ratio, pairs, 0.5), at_share(ratio, pairs, 0.25),
         at_share(ratio, pairs, 0.75), at_share(archive, pairs, 0.5), at_share(twin, pairs, 0.5));
  free(ratio), free(archive), free(twin);
}

int main(int arguments, char **argument) {
  if (arguments == 4 && strcmp(argument[1], "-1") == 0) {
    /* What is made ready is made so by the other side's functions, so that only the calls of the job are counted. */
    const struct job *job = &jobs[atoi(argument[2]) % JOBS];
    struct side *s = &sides[atoi(argument[3]) % 2], other = sides[1 - atoi(argument[3]) % 2];
    other.words = s->words;
    job->fill(&other);
    uint64_t calls = 0;
    for (int i = 0; i < 20; i++) job->ready(&other), calls += job->run(s);
    printf("%" PRIu64 " %s\n", calls, job->name);
    return EXIT_SUCCESS;
  }
  int pairs = arguments > 1 ? atoi(argument[1]) : 101;
  for (int i = 0; i < JOBS; i++) compare(&jobs[i], pairs < 1 ? 1 : pairs);
  return EXIT_SUCCESS;
}
