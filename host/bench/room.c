/*
 * The job a room has: the sizes of all projects at a snapshot while 63 workers relink, on the catalogue, on LMDB and on SQLite in WAL mode.
 * One thread takes turns on all three. The number of relinks is the same, and so are the sums, which are compared.
 *
 * usage: room FOLDER [repeats] [durable]: the databases are made in FOLDER; 'durable' leaves their synchronising on, else it is off
 */
#define _GNU_SOURCE
#include "databases.h"
#include "goravesha.h"
#include "room.h"

#include <string.h>

#ifndef RELINKS
#define RELINKS 1280 /* 0: the report alone */
#endif
enum { RELINKERS = 63, REPORTER = 63, WORKERS = 64, NODES = 4096 };
static const size_t COUNT = GORAVESHA_WORDS(WORKERS, ITEMS, NODES);

/* Which item the n-th relink moves, and where to: item after item, each to its next project. */
static uint32_t linked[ITEMS];
static uint32_t nth_item(uint32_t n) { return n % ITEMS; }

/* The catalogue. */

static uint32_t words[GORAVESHA_WORDS(64, 256, 4096)];
static goravesha_answer answer;
static uint32_t started, finished, busy_with[RELINKERS];

static void accepted(uint32_t code) { check(code == GORAVESHA_ACCEPTED, goravesha_text(code)); }

static void catalogue_open(void) {
  accepted(goravesha_make(words, COUNT, WORKERS, ITEMS, NODES, PROJECTS, 1000, &answer));
  for (uint32_t i = 0; i < ITEMS; i++) accepted(goravesha_register(words, COUNT, linked[i], size_of(i), &answer));
}

/* A turn of one relinker: a step, or the start of its next relink. */
static void relinker_turn(uint32_t worker) {
  if (busy_with[worker] == 0) {
    /* An item's next relink starts when the one before has ended: RELINKERS is less than ITEMS. */
    if (started == RELINKS) return;
    uint32_t item = nth_item(started++);
    accepted(goravesha_start_vcas(words, COUNT, worker, item, linked[item], next_project(linked[item]), &answer));
    busy_with[worker] = item + 1;
  } else if (goravesha_step(words, COUNT, worker, &answer) == GORAVESHA_FINISHED) {
    uint32_t item = busy_with[worker] - 1;
    check(answer.value == 1, "a relink was lost");
    linked[item] = next_project(linked[item]);
    busy_with[worker] = 0;
    finished++;
  }
}

static void catalogue_job(uint64_t *sums) {
  uint32_t turn = 0;
  started = finished = 0;
  accepted(goravesha_start_take_snapshot(words, COUNT, REPORTER, &answer));
  check(goravesha_finish(words, COUNT, REPORTER, &answer) == GORAVESHA_FINISHED, "the snapshot");
  uint32_t handle = (uint32_t)answer.value;
  for (uint32_t project = 0; project < PROJECTS; project++) {
    accepted(goravesha_start_total(words, COUNT, REPORTER, project, handle, &answer));
    while (goravesha_step(words, COUNT, REPORTER, &answer) == GORAVESHA_RUNNING) {
      relinker_turn(turn);
      relinker_turn(turn);
      turn = turn + 1 == RELINKERS ? 0 : turn + 1;
    }
    sums[project] = answer.value;
  }
  for (; finished != RELINKS; turn = (turn + 1) % RELINKERS) relinker_turn(turn);
}

/* The databases: an equal part of the relinks after each record or row of the report. */

static struct connection reader, writer;
static uint32_t done;

static void relink_some(uint32_t relinks, void (*relink)(uint32_t, uint32_t, uint32_t)) {
  for (; relinks > 0; relinks--) {
    uint32_t item = nth_item(done++), from = linked[item];
    linked[item] = next_project(from);
    relink(item, from, linked[item]);
  }
}

static void lmdb_part(void) { relink_some(RELINKS / ITEMS, lmdb_relink); }

static void lmdb_job(uint64_t *sums) {
  done = 0;
  lmdb_report(sums, lmdb_part);
}

static void sqlite_write(uint32_t item, uint32_t from, uint32_t to) { sqlite_relink(&writer, item, from, to); }
static void sqlite_part(void) { relink_some(RELINKS / PROJECTS, sqlite_write); }

static void sqlite_job(uint64_t *sums) {
  done = 0;
  sqlite_report(&reader, sums, sqlite_part);
  check(done == RELINKS, "SQLite: projects without an item");
}

static double timed_job(void (*job)(uint64_t *)) {
  uint64_t sums[PROJECTS] = {0}, right[PROJECTS] = {0};
  for (uint32_t i = 0; i < ITEMS; i++) right[linked[i]] += size_of(i);
  double from = microseconds();
  job(sums);
  double to = microseconds();
  check(memcmp(sums, right, sizeof sums) == 0, "the sums are not those at the snapshot");
  return to - from;
}

int main(int arguments, char **argument) {
  check(arguments > 1, "usage: room FOLDER [repeats] [durable]");
  int repeats = arguments > 2 ? atoi(argument[2]) : 31, durable = arguments > 3;
  double spent[3][1000], ratio[3][1000];
  check(repeats >= 1 && repeats <= 1000, "repeats are 1 to 1000");
  uint32_t start[ITEMS], side[3][ITEMS];
  for (uint32_t i = 0; i < ITEMS; i++) start[i] = i % PROJECTS;
  memcpy(linked, start, sizeof linked);
  lmdb_open(argument[1], durable, start);
  sqlite_make(argument[1], start);
  reader = sqlite_connect(argument[1], durable);
  writer = sqlite_connect(argument[1], durable);
  for (int which = 0; which < 3; which++) memcpy(side[which], start, sizeof start);
  for (int i = 0; i < repeats; i++) {
    for (int which = 0; which < 3; which++) {
      memcpy(linked, side[which], sizeof linked);
      if (which == 0) catalogue_open();
      spent[which][i] = timed_job(which == 0 ? catalogue_job : which == 1 ? lmdb_job : sqlite_job);
      ratio[which][i] = spent[which][i] / spent[0][i];
      memcpy(side[which], linked, sizeof linked);
    }
  }
  static const char *const name[3] = {"Goravesha", "LMDB", "SQLite (WAL)"};
  for (int which = 0; which < 3; which++) {
    qsort(spent[which], (size_t)repeats, sizeof(double), ascending);
    qsort(ratio[which], (size_t)repeats, sizeof(double), ascending);
    printf("%-13s %10.1f us  ratio %.2f (quartiles %.2f to %.2f)\n", name[which], spent[which][repeats / 2], ratio[which][repeats / 2], ratio[which][repeats / 4],
           ratio[which][3 * repeats / 4]);
  }
  return EXIT_SUCCESS;
}
