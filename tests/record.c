/*
 * The recorder (include/goravesha_record.h), as C and as C++. Each recording is written below a folder as NAME.frames and NAME.answers, for
 * tests/record.sh to run the frames by schedule and compare; the listing's lent words as listing.words, for tools/dump.py.
 *
 * usage: record FOLDER
 */
#include "goravesha_record.h"
#include "tables.h"

#include <stdlib.h>
#include <string.h>

enum { WORKERS = 3, ITEMS = 4, NODES = 24, PROJECTS = 4, COUNTER = 12, COUNT = 16 + 16 * WORKERS + 4 * ITEMS + 3 * NODES, SERVICE_CALLS = 20000 };

static const char *folder;
static uint32_t words[COUNT];
static goravesha_answer answer;
static goravesha_recorder recorder;
static int wrong;

#define CHECK(holds) check(holds, #holds, __LINE__)
static void check(int holds, const char *what, int line) {
  if (holds) return;
  fprintf(stderr, "record.c, line %d: not so: %s\n", line, what);
  wrong = 1;
}

static FILE *opened(const char *name, const char *kind) {
  char path[4096];
  FILE *file;
  snprintf(path, sizeof path, "%s/%s.%s", folder, name, kind);
  file = fopen(path, "wb");
  if (file != NULL) return file;
  perror(path);
  exit(EXIT_FAILURE);
}

static void begin(const char *name) {
  memset(words, 0, sizeof words);
  goravesha_record_begin(&recorder, opened(name, "frames"), opened(name, "answers"));
}

/* Whether the recording was complete; its files are closed. */
static int end(void) {
  const int complete = goravesha_record_complete(&recorder);
  CHECK(fclose(recorder.frames) == 0 && fclose(recorder.answers) == 0);
  return complete;
}

static uint32_t make(uint32_t counter) { return goravesha_recorded_make(&recorder, words, COUNT, WORKERS, ITEMS, NODES, PROJECTS, counter, &answer); }
static uint32_t add_item(uint32_t size) { return goravesha_recorded_register(&recorder, words, COUNT, 1, size, &answer); }
static uint32_t step(uint32_t worker) { return goravesha_recorded_step(&recorder, words, COUNT, worker, &answer); }
static uint32_t vread(uint32_t worker) { return goravesha_recorded_start_vread(&recorder, words, COUNT, worker, 0, &answer); }

/* Document 01's listing, for the sizes that it has. */
static void listing(void) {
  enum { LISTING_COUNT = 16 + 16 * 2 + 4 * 2 + 3 * 8 };
  int turn;
  FILE *lent = opened("listing", "words");
  begin("listing");
  CHECK(goravesha_recorded_make(&recorder, words, LISTING_COUNT, 2, 2, 8, 4, 16, &answer) == GORAVESHA_ACCEPTED);
  CHECK(goravesha_recorded_register(&recorder, words, LISTING_COUNT, 1, 100, &answer) == GORAVESHA_ACCEPTED);
  CHECK(goravesha_recorded_start_take_snapshot(&recorder, words, LISTING_COUNT, 0, &answer) == GORAVESHA_ACCEPTED);
  CHECK(goravesha_recorded_finish(&recorder, words, LISTING_COUNT, 0, &answer) == GORAVESHA_FINISHED);
  CHECK(goravesha_recorded_start_vcas(&recorder, words, LISTING_COUNT, 1, 0, 1, 2, &answer) == GORAVESHA_ACCEPTED);
  for (turn = 0; turn < 5; turn++) CHECK(goravesha_recorded_step(&recorder, words, LISTING_COUNT, 1, &answer) == GORAVESHA_RUNNING);
  CHECK(goravesha_recorded_start_read_snapshot(&recorder, words, LISTING_COUNT, 0, 0, 0, &answer) == GORAVESHA_ACCEPTED);
  CHECK(goravesha_recorded_finish(&recorder, words, LISTING_COUNT, 0, &answer) == GORAVESHA_FINISHED && answer.value == 1 && answer.steps == 6);
  CHECK(fwrite(words, sizeof *words, LISTING_COUNT, lent) == LISTING_COUNT && fclose(lent) == 0);
  CHECK(end() == 1);
}

/* A service of drawn calls: what each worker is in, and what was met. */
static struct draw draws;
static uint32_t running[WORKERS], met[32];
static unsigned lost, totals;

static uint32_t start(uint32_t worker, uint32_t operation) {
  const uint32_t item = draw_below(&draws, ITEMS + 1), project = draw_below(&draws, PROJECTS + 1), other = draw_below(&draws, PROJECTS);
  const uint32_t handle = draw_below(&draws, COUNTER + 1);
  switch (operation) {
    case 3: return goravesha_recorded_start_vread(&recorder, words, COUNT, worker, item, &answer);
    case 4: return goravesha_recorded_start_vcas(&recorder, words, COUNT, worker, item, project, other, &answer);
    case 5: return goravesha_recorded_start_take_snapshot(&recorder, words, COUNT, worker, &answer);
    case 6: return goravesha_recorded_start_read_snapshot(&recorder, words, COUNT, worker, item, handle, &answer);
    default: return goravesha_recorded_start_total(&recorder, words, COUNT, worker, project, handle, &answer);
  }
}

static uint32_t worker_call(uint32_t worker) {
  uint32_t code, operation;
  if (worker < WORKERS && running[worker] != 0 && !draw_once_in(&draws, 50)) {
    code = step(worker);
    lost += code == GORAVESHA_FINISHED && running[worker] == 4 && answer.value == 0 && answer.steps > 5;
    totals += code == GORAVESHA_FINISHED && running[worker] == 7;
    if (code != GORAVESHA_RUNNING) running[worker] = 0;
    return code;
  }
  if (draw_once_in(&draws, 50)) return step(worker);
  operation = draw_once_in(&draws, 3) ? 4 : 3 + draw_below(&draws, 5);
  code = start(worker, operation);
  if (code == GORAVESHA_ACCEPTED) running[worker] = operation;
  return code;
}

static uint32_t service_call(void) {
  if (draw_once_in(&draws, 500)) {
    const uint32_t code = make(draw_once_in(&draws, 4) ? 0u : (uint32_t)COUNTER);
    if (code == GORAVESHA_ACCEPTED) memset(running, 0, sizeof running);
    return code;
  }
  if (draw_once_in(&draws, 20)) return goravesha_recorded_register(&recorder, words, COUNT, draw_below(&draws, PROJECTS + 1), draw_below(&draws, 65536), &answer);
  return worker_call(draw_once_in(&draws, 100) ? (uint32_t)WORKERS : draw_below(&draws, WORKERS));
}

static void service(void) {
  uint32_t call, code;
  begin("service");
  for (code = 3; code <= 7; code++) CHECK(start(0, code) == GORAVESHA_REFUSED + 2);
  CHECK(make(COUNTER) == GORAVESHA_ACCEPTED);
  for (call = 0; call < SERVICE_CALLS; call++) {
    code = service_call();
    CHECK(code < 32);
    met[code % 32]++;
  }
  CHECK(lost > 0 && totals > 0);
  for (code = 0; code < 3; code++) CHECK(met[code] > 0);
  for (code = 1; code <= 12; code++) CHECK((met[GORAVESHA_REFUSED + code] > 0) == (code != 2));
  CHECK(end() == 1);
}

/* Whether the first call that does not fit is noted as it should be. */
static int unfit(uint64_t call, const char *argument, uint32_t number) {
  return recorder.unfit_call == call && strcmp(recorder.unfit_argument, argument) == 0 && recorder.unfit_number == number;
}

/* Accepted, but with no frame: all is left out up to the next make. */
static void gaps(void) {
  begin("gaps");
  CHECK(make(65536) == GORAVESHA_ACCEPTED && recorder.written == 0 && unfit(1, "counter", 65536));
  CHECK(add_item(1) == GORAVESHA_ACCEPTED && make(0) == GORAVESHA_REFUSED + 1 && recorder.written == 0);
  CHECK(make(65535) == GORAVESHA_ACCEPTED && recorder.written == 1);
  CHECK(add_item(65535) == GORAVESHA_ACCEPTED && recorder.written == 2 && !goravesha_record_complete(&recorder));
  CHECK(add_item(65536) == GORAVESHA_ACCEPTED && vread(0) == GORAVESHA_ACCEPTED && step(0) == GORAVESHA_RUNNING && recorder.written == 2);
  CHECK(make(COUNTER) == GORAVESHA_ACCEPTED && add_item(7) == GORAVESHA_ACCEPTED && answer.value == 0 && recorder.written == 4);
  CHECK(unfit(1, "counter", 65536) && recorder.calls == 10);
  CHECK(end() == 0);
}

/* Refused, and with no frame: it alone is left out. */
static void left_out(void) {
  begin("left_out");
  CHECK(make(COUNTER) == GORAVESHA_ACCEPTED && add_item(1) == GORAVESHA_ACCEPTED && goravesha_record_complete(&recorder) == 1);
  CHECK(vread(65536) == GORAVESHA_REFUSED + 3 && recorder.written == 2 && unfit(3, "worker", 65536));
  CHECK(goravesha_recorded_start_total(&recorder, words, COUNT, 0, 1, 4294967295u, &answer) == GORAVESHA_REFUSED + 8 && recorder.written == 2);
  CHECK(vread(65535) == GORAVESHA_REFUSED + 3 && recorder.written == 3);
  CHECK(vread(0) == GORAVESHA_ACCEPTED && goravesha_recorded_finish(&recorder, words, COUNT, 0, &answer) == GORAVESHA_FINISHED);
  CHECK(answer.value == 1 && answer.steps == 3 && recorder.written == 7 && recorder.calls == 9);
  CHECK(unfit(3, "worker", 65536));
  goravesha_record_report(&recorder, stdout);
  CHECK(end() == 0);
}

/* An abandon has no frame. One that is refused is left out alone; after one that is accepted all is, up to the next make. */
static void abandons(void) {
  begin("abandons");
  CHECK(make(COUNTER) == GORAVESHA_ACCEPTED && add_item(1) == GORAVESHA_ACCEPTED);
  CHECK(goravesha_recorded_abandon(&recorder, words, COUNT, 0, &answer) == GORAVESHA_REFUSED + 5 && recorder.written == 2);
  CHECK(recorder.unfit_call == 3 && recorder.unfit_argument == NULL);
  CHECK(vread(0) == GORAVESHA_ACCEPTED && step(0) == GORAVESHA_RUNNING && recorder.written == 4);
  CHECK(goravesha_recorded_abandon(&recorder, words, COUNT, 0, &answer) == GORAVESHA_ACCEPTED && recorder.written == 4);
  CHECK(vread(0) == GORAVESHA_ACCEPTED && recorder.written == 4);
  CHECK(make(COUNTER) == GORAVESHA_ACCEPTED && add_item(7) == GORAVESHA_ACCEPTED && recorder.written == 6 && recorder.calls == 9);
  goravesha_record_report(&recorder, stdout);
  CHECK(end() == 0);
}

/* Whether a recording of one call into these files is complete. The call is made whatever becomes of its line. */
static int complete_into(FILE *frames, FILE *answers) {
  goravesha_record_begin(&recorder, frames, answers);
  CHECK(make(COUNTER) == GORAVESHA_ACCEPTED);
  return goravesha_record_complete(&recorder);
}

static void writes_that_fail(void) {
  FILE *full = fopen("/dev/full", "w"), *for_reading = fopen("/dev/null", "r"), *good = fopen("/dev/null", "w");
  if (full == NULL || for_reading == NULL || good == NULL) exit(EXIT_FAILURE);
  CHECK(complete_into(good, NULL) == 1 && complete_into(good, good) == 1);
  CHECK(complete_into(for_reading, good) == 0 && complete_into(good, for_reading) == 0);
  CHECK(complete_into(full, NULL) == 0 && complete_into(good, full) == 0);
  goravesha_record_report(&recorder, stdout);
  fclose(full);
  fclose(for_reading);
  fclose(good);
}

int main(int count, char **arguments) {
  if (count != 2) return EXIT_FAILURE;
  folder = arguments[1];
  listing();
  service();
  gaps();
  left_out();
  abandons();
  writes_that_fail();
  return wrong ? EXIT_FAILURE : EXIT_SUCCESS;
}
