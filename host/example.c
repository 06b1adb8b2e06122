/*
 * An example host: the page of a dailies room, kept consistent while relinks go on. Two workers relink in turn, a third answers the page: it
 * takes a snapshot, asks for two projects' sizes at it, and later asks for the same again. The answers are those of one moment, whatever was relinked since.
 *
 * build: cc example.c $(pkg-config --cflags --libs goravesha)
 */
#include <goravesha.h>

#include <inttypes.h>
#include <stdio.h>
#include <stdlib.h>

enum { WORKERS = 3, ITEMS = 4, NODES = 4096, PROJECTS = 3, PAGE = 2 };

static uint32_t words[GORAVESHA_WORDS(WORKERS, ITEMS, NODES)];
static const size_t count = sizeof words / sizeof words[0];
static goravesha_answer answer;

/* No call of this host may be refused: it knows its own sizes. */
static uint32_t accepted(uint32_t code) {
  if (code >= GORAVESHA_REFUSED) {
    fprintf(stderr, "refused: %s\n", goravesha_text(code));
    exit(EXIT_FAILURE);
  }
  return code;
}

/* One turn of a worker that relinks its item between projects 1 and 2, for ever: a step, or the start of the next relink. */
static void relink(uint32_t worker) {
  static uint32_t project[2] = {1, 1};
  if (!goravesha_busy(words, count, worker)) {
    accepted(goravesha_start_vcas(words, count, worker, worker, project[worker], 3 - project[worker], &answer));
  } else if (accepted(goravesha_step(words, count, worker, &answer)) == GORAVESHA_FINISHED && answer.value == 1) {
    project[worker] = 3 - project[worker];
  }
}

/* A project's size at a handle, a step at a time, with a turn of both relinkers after each. */
static uint64_t size_at(uint32_t project, uint32_t handle) {
  accepted(goravesha_start_total(words, count, PAGE, project, handle, &answer));
  while (accepted(goravesha_step(words, count, PAGE, &answer)) == GORAVESHA_RUNNING) {
    relink(0);
    relink(1);
  }
  return answer.value;
}

/* A snapshot is two steps: they are taken at once. */
static uint32_t snapshot(void) {
  accepted(goravesha_start_take_snapshot(words, count, PAGE, &answer));
  accepted(goravesha_finish(words, count, PAGE, &answer));
  return (uint32_t)answer.value;
}

int main(void) {
  static const uint32_t size[ITEMS] = {100, 200, 400, 800};
  uint64_t all = 0;
  accepted(goravesha_make(words, count, WORKERS, ITEMS, NODES, PROJECTS, 1000, &answer));
  for (uint32_t item = 0; item < ITEMS; item++) {
    accepted(goravesha_register(words, count, item < 2 ? 1 : 2, size[item], &answer));
    all += size[item];
  }
  for (uint32_t turns = 0; turns < 25; turns++) relink(turns % 3 == 2);
  for (int page = 0; page < 3; page++) {
    uint32_t handle = snapshot();
    uint64_t first = size_at(1, handle), second = size_at(2, handle), again = size_at(1, handle);
    printf("handle %" PRIu32 ": project 1 has %" PRIu64 " MiB, project 2 has %" PRIu64 ", together %" PRIu64 "; project 1 asked again: %" PRIu64 "\n", handle, first,
           second, first + second, again);
    if (first + second != all || again != first) {
      fprintf(stderr, "the page is not of one moment\n");
      return EXIT_FAILURE;
    }
  }
  return EXIT_SUCCESS;
}
