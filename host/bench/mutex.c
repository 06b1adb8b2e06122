/*
 * What a mutex around the calls costs where no other thread wants it: steps without one, with one around each call, and with one around
 * each whole operation, in one run, turn about.
 *
 * usage: mutex [rounds]: prints for each job nanoseconds a step, and the median of the ratios to the bare steps with their quartiles
 */
#define _GNU_SOURCE
#include "goravesha.h"
#include "timing.h"

#include <pthread.h>
#include <stdio.h>
#include <stdlib.h>

enum { WORKERS = 4, ITEMS = 256, NODES = 4096, PROJECTS = 8, MOST_ROUNDS = 1000 };
enum held { NEVER, AROUND_EACH_CALL, AROUND_EACH_OPERATION, WAYS };
static const char *const way_name[WAYS] = {"no mutex", "a mutex around each call", "a mutex around each operation"};

static uint32_t words[GORAVESHA_WORDS(WORKERS, ITEMS, NODES)];
static const size_t count = sizeof words / sizeof words[0];
static goravesha_answer answer;
static pthread_mutex_t mutex = PTHREAD_MUTEX_INITIALIZER, asleep = PTHREAD_MUTEX_INITIALIZER;

static void lock(int wanted) {
  if (wanted) pthread_mutex_lock(&mutex);
}
static void unlock(int wanted) {
  if (wanted) pthread_mutex_unlock(&mutex);
}

static uint32_t accepted(uint32_t code) {
  if (code < GORAVESHA_REFUSED) return code;
  fprintf(stderr, "mutex: %s\n", goravesha_text(code));
  exit(EXIT_FAILURE);
}

static void fill(void) {
  accepted(goravesha_make(words, count, WORKERS, ITEMS, NODES, PROJECTS, 4294967294u, &answer));
  for (uint32_t item = 0; item < ITEMS; item++) accepted(goravesha_register(words, count, 1, 100 + item, &answer));
  accepted(goravesha_start_take_snapshot(words, count, 0, &answer));
  accepted(goravesha_finish(words, count, 0, &answer));
}

static void start_total(uint32_t turn) { accepted(goravesha_start_total(words, count, 0, turn % PROJECTS, 0, &answer)); }
static void start_relink(uint32_t turn) {
  uint32_t from = 1 + turn / ITEMS % 2;
  accepted(goravesha_start_vcas(words, count, 0, turn % ITEMS, from, 3 - from, &answer));
}
static void start_vread(uint32_t turn) { accepted(goravesha_start_vread(words, count, 0, turn % ITEMS, &answer)); }

static const struct job {
  const char *name;
  void (*start)(uint32_t);
  uint32_t turns;
} jobs[] = {{"vRead", start_vread, 4096}, {"vCAS that changes", start_relink, 1024}, {"total over 256 items", start_total, 16}};
enum { JOBS = sizeof jobs / sizeof *jobs };

/* Nanoseconds a step, the starts included, of a job on a fresh catalogue. */
static double timed(const struct job *job, enum held held) {
  uint64_t steps = 0;
  fill();
  double from = nanoseconds();
  for (uint32_t turn = 0; turn < job->turns; turn++) {
    lock(held != NEVER);
    job->start(turn);
    unlock(held == AROUND_EACH_CALL);
    uint32_t code;
    do {
      lock(held == AROUND_EACH_CALL);
      code = goravesha_step(words, count, 0, &answer);
      unlock(held == AROUND_EACH_CALL);
    } while (accepted(code) == GORAVESHA_RUNNING);
    steps += answer.steps;
    unlock(held == AROUND_EACH_OPERATION);
  }
  return (nanoseconds() - from) / (double)steps;
}

static void measure(const struct job *job, int rounds) {
  static double spent[WAYS][MOST_ROUNDS], ratio[WAYS][MOST_ROUNDS];
  for (int round = 0, tries = 0; round < rounds; tries++) {
    long before = interruptions();
    for (int turn = 0; turn < WAYS; turn++) {
      int way = (turn + tries) % WAYS;
      spent[way][round] = timed(job, (enum held)way);
    }
    if (interruptions() != before && tries < 20 * rounds) continue;
    for (int way = 0; way < WAYS; way++) ratio[way][round] = spent[way][round] / spent[NEVER][round];
    round++;
  }
  for (int way = 0; way < WAYS; way++) {
    qsort(spent[way], (size_t)rounds, sizeof(double), ascending);
    qsort(ratio[way], (size_t)rounds, sizeof(double), ascending);
    printf("%-21s %-30s %6.2f ns a step  ratio %.2f (quartiles %.2f to %.2f)\n", job->name, way_name[way], spent[way][rounds / 2], ratio[way][rounds / 2],
           ratio[way][rounds / 4], ratio[way][3 * rounds / 4]);
  }
}

/* A second thread, which sleeps all along: with one thread alone the C library takes a cheaper way through its mutex. */
static void *sleeper(void *unused) {
  pthread_mutex_lock(&asleep);
  pthread_mutex_unlock(&asleep);
  return unused;
}

int main(int arguments, char **argument) {
  int rounds = arguments > 1 ? atoi(argument[1]) : 101;
  pthread_t second;
  if (rounds < 1 || rounds > MOST_ROUNDS) return EXIT_FAILURE;
  pthread_mutex_lock(&asleep);
  if (pthread_create(&second, NULL, sleeper, NULL) != 0) return EXIT_FAILURE;
  for (int i = 0; i < JOBS; i++) measure(&jobs[i], rounds);
  pthread_mutex_unlock(&asleep);
  return pthread_join(second, NULL) == 0 ? EXIT_SUCCESS : EXIT_FAILURE;
}
