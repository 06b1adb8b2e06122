/*
 * The header's own functions, held to exact numbers: on sound words, on damaged words, and on too few words, which stand up against a page that
 * may not be touched. It is C and C++: tests/header.sh builds it as both.
 */
#ifndef _DEFAULT_SOURCE
#define _DEFAULT_SOURCE 1
#endif
#include "goravesha.h"

#include <stdio.h>
#include <stdlib.h>
#include <string.h>
#include <sys/mman.h>
#include <unistd.h>

enum { PAGE_WORDS = 1024, ROOM_WORDS = 4 * PAGE_WORDS };
enum { WORKERS = 3, ITEMS = 8, NODES = 12, PROJECTS = 5, COUNTER = 4, NEEDED = 16 + 16 * WORKERS + 4 * ITEMS + 3 * NODES };
static const uint32_t NODE_0 = 16 + 16 * WORKERS + 4 * ITEMS;

static uint32_t *end; /* the first word that may not be touched; the room before it may */
static uint32_t *words;
static size_t count;
static goravesha_answer answer;
static unsigned checks, wrong;

static void expect(const char *what, uint64_t got, uint64_t wanted) {
  checks++;
  if (got == wanted) return;
  if (wrong++ < 20) fprintf(stderr, "header: %s: %llu, expected %llu\n", what, (unsigned long long)got, (unsigned long long)wanted);
}

static void expect_answer(const char *what, uint32_t code, uint32_t wanted, uint64_t value, uint64_t steps) {
  expect(what, code, wanted);
  expect(what, answer.value, value);
  expect(what, answer.steps, steps);
  expect(what, answer.stamped, 0);
  expect(what, answer.operator_number, 0);
}

static void expect_fullness(const char *what, uint32_t items, uint32_t nodes, uint32_t counter) {
  expect(what, goravesha_items(words, count), items);
  expect(what, goravesha_nodes_used(words, count), nodes);
  expect(what, goravesha_counter(words, count), counter);
}

static void expect_busy(const char *what, int first, int second, int third) {
  expect(what, (uint64_t)goravesha_busy(words, count, 0), (uint64_t)first);
  expect(what, (uint64_t)goravesha_busy(words, count, 1), (uint64_t)second);
  expect(what, (uint64_t)goravesha_busy(words, count, 2), (uint64_t)third);
}

/* So many words up against the page that may not be touched. */
static void lend(size_t wanted) {
  count = wanted;
  words = end - wanted;
}

static uint32_t finish(uint32_t worker) { return goravesha_finish(words, count, worker, &answer); }

static void step(uint32_t worker, int steps) {
  for (int i = 0; i < steps; i++) expect("a step goes on", goravesha_step(words, count, worker, &answer), GORAVESHA_RUNNING);
}

static void start_vcas(uint32_t worker, uint32_t item, uint32_t from, uint32_t to) {
  expect_answer("start of vCAS", goravesha_start_vcas(words, count, worker, item, from, to, &answer), GORAVESHA_ACCEPTED, 0, 0);
}

static void start_take_snapshot(uint32_t worker) {
  expect_answer("start of takeSnapshot", goravesha_start_take_snapshot(words, count, worker, &answer), GORAVESHA_ACCEPTED, 0, 0);
}

static void start_read_snapshot(uint32_t worker, uint32_t item, uint32_t handle) {
  expect_answer("start of readSnapshot", goravesha_start_read_snapshot(words, count, worker, item, handle, &answer), GORAVESHA_ACCEPTED, 0, 0);
}

/* A fresh catalogue with so many items of project 1, of 100 MiB each. */
static void fresh(uint32_t nodes, uint32_t counter, uint32_t items) {
  lend(NEEDED);
  expect_answer("make", goravesha_make(words, count, WORKERS, ITEMS, nodes, PROJECTS, counter, &answer), GORAVESHA_ACCEPTED, 0, 0);
  for (uint32_t item = 0; item < items; item++)
    expect_answer("register", goravesha_register(words, count, 1, 100, &answer), GORAVESHA_ACCEPTED, item, 0);
}

/* Every operation to its end, and every way a step is refused. */
static void finishing(void) {
  fresh(NODES, COUNTER, 2);
  expect_answer("finish of an idle worker", finish(0), GORAVESHA_WORKER_IDLE, 0, 0);
  expect_answer("finish of no worker", finish(WORKERS), GORAVESHA_NO_SUCH_WORKER, 0, 0);
  expect("start of vRead", goravesha_start_vread(words, count, 0, 1, &answer), GORAVESHA_ACCEPTED);
  expect_answer("vRead", finish(0), GORAVESHA_FINISHED, 1, 3);
  start_take_snapshot(1);
  expect_answer("takeSnapshot", finish(1), GORAVESHA_FINISHED, 0, 2);
  start_vcas(2, 0, 1, 2);
  step(2, 5);
  expect_answer("vCAS, from its sixth step", finish(2), GORAVESHA_FINISHED, 1, 9);
  start_vcas(2, 0, 1, 3);
  expect_answer("vCAS of another value", finish(2), GORAVESHA_FINISHED, 0, 3);
  start_read_snapshot(0, 0, 0);
  expect_answer("readSnapshot", finish(0), GORAVESHA_FINISHED, 1, 4);
  expect("start of total", goravesha_start_total(words, count, 0, 1, 0, &answer), GORAVESHA_ACCEPTED);
  expect_answer("total", finish(0), GORAVESHA_FINISHED, 200, 8);
  fresh(1, 1, 1);
  start_vcas(0, 0, 1, 2);
  expect_answer("vCAS without a node", finish(0), GORAVESHA_NODES_FULL, 0, 4);
  start_take_snapshot(0);
  expect_answer("the only handle", finish(0), GORAVESHA_FINISHED, 0, 2);
  start_take_snapshot(0);
  expect_answer("no handle left", finish(0), GORAVESHA_COUNTER_FULL, 0, 1);
  /* with neither a node nor a handle left, what is there can still be read */
  expect("start of vRead", goravesha_start_vread(words, count, 0, 0, &answer), GORAVESHA_ACCEPTED);
  expect_answer("vRead of a full catalogue", finish(0), GORAVESHA_FINISHED, 1, 3);
  start_read_snapshot(0, 0, 0);
  expect_answer("readSnapshot of a full catalogue", finish(0), GORAVESHA_FINISHED, 1, 3);
  expect("start of total", goravesha_start_total(words, count, 0, 1, 0, &answer), GORAVESHA_ACCEPTED);
  expect_answer("total of a full catalogue", finish(0), GORAVESHA_FINISHED, 100, 4);
  expect_busy("after refusals in a step", 0, 0, 0);
}

/* An item whose versions lead round in a ring: the walk would never end, and ends at the step that the count of steps refuses. */
static void finishing_on_damaged_words(void) {
  fresh(NODES, COUNTER, 1);
  for (int i = 0; i < 2; i++) {
    start_take_snapshot(0);
    expect("a handle", finish(0), GORAVESHA_FINISHED);
  }
  words[NODE_0 + 1] = 1; /* node 0's older node is node 0 */
  words[NODE_0 + 2] = 2; /* its stamp is above handle 1 */
  start_read_snapshot(1, 0, 1);
  expect_answer("a ring of versions", finish(1), GORAVESHA_DAMAGED, 0, 0);
  expect("steps taken in the ring", words[16 + 16 + 1], 5121);
  expect_busy("after the ring", 0, 1, 0);
  expect_answer("the ring again", finish(1), GORAVESHA_DAMAGED, 0, 0);
  words[16 + 16 + 1] = 5120;
  expect_answer("the last step in the ring", goravesha_step(words, count, 1, &answer), GORAVESHA_RUNNING, 0, 5121);
  words[5] = COUNTER + 1;
  expect_answer("a damaged header", finish(1), GORAVESHA_DAMAGED, 0, 0);
}

/* Two vCAS of one item by workers 0 and 1, both past line 45; worker 0 is first, worker 1 loses and gives its node back. */
static void one_loses(uint32_t from, uint32_t nodes) {
  start_vcas(0, 0, from, 3 - from);
  start_vcas(1, 0, from, 4);
  expect_busy("two in an operation", 1, 1, 0);
  step(0, 4);
  step(1, 4);
  expect("both hold a node", goravesha_nodes_used(words, count), nodes + 2);
  expect_answer("the first", finish(0), GORAVESHA_FINISHED, 1, 9);
  expect_answer("the loser", finish(1), GORAVESHA_FINISHED, 0, 9);
  expect("one was given back", goravesha_nodes_used(words, count), nodes + 1);
  expect_busy("both done", 0, 0, 0);
}

/* A vCAS of worker 0 that is abandoned after so many steps: the worker is free, and so many more nodes are in use than before it. */
static void abandoned_after(int steps, uint32_t more_nodes) {
  fresh(NODES, COUNTER, 1);
  start_vcas(0, 0, 1, 2);
  step(0, steps);
  expect("held or published", goravesha_nodes_used(words, count), steps < 4 ? 1 : 2);
  expect_answer("abandon", goravesha_abandon(words, count, 0, &answer), GORAVESHA_ACCEPTED, 0, 0);
  expect_busy("after an abandon", 0, 0, 0);
  expect("nodes after an abandon", goravesha_nodes_used(words, count), 1 + more_nodes);
  expect_answer("a second abandon", goravesha_abandon(words, count, 0, &answer), GORAVESHA_WORKER_IDLE, 0, 0);
  expect_answer("finish of an abandoned worker", finish(0), GORAVESHA_WORKER_IDLE, 0, 0);
  expect("start of vRead", goravesha_start_vread(words, count, 0, 0, &answer), GORAVESHA_ACCEPTED);
  expect_answer("vRead after an abandon", finish(0), GORAVESHA_FINISHED, more_nodes ? 2 : 1, steps < 5 || steps == 8 ? 3 : 5);
}

/* A vCAS alone publishes at its fifth step and has its node stamped at its eighth. */
static void abandoning(void) {
  for (int steps = 0; steps < 9; steps++) abandoned_after(steps, steps < 5 ? 0 : 1);
  expect_answer("abandon of no worker", goravesha_abandon(words, count, WORKERS, &answer), GORAVESHA_NO_SUCH_WORKER, 0, 0);
}

static void how_full(void) {
  fresh(NODES, COUNTER, 0);
  expect_fullness("fresh", 0, 0, 0);
  expect_busy("fresh", 0, 0, 0);
  fresh(NODES, COUNTER, 3);
  expect_fullness("three items", 3, 3, 0);
  start_take_snapshot(2);
  expect_busy("a snapshot under way", 0, 0, 1);
  expect("a handle", finish(2), GORAVESHA_FINISHED);
  expect_fullness("a snapshot", 3, 3, 1);
  one_loses(1, 3);
  expect("nodes ever taken", words[7], 5);
  expect_fullness("one relink", 3, 4, 1);
  one_loses(2, 4);
  expect("nodes ever taken: the waiting one was taken again", words[7], 6);
  expect_fullness("two relinks", 3, 5, 1);
  /* N less the nodes in use can still be taken: one more is refused. */
  for (uint32_t left = NODES - goravesha_nodes_used(words, count); left > 2; left--)
    expect("a register", goravesha_register(words, count, 0, 0, &answer), GORAVESHA_ACCEPTED);
  expect_fullness("as many items as fit", 8, 10, 1);
  expect_answer("no item left", goravesha_register(words, count, 0, 0, &answer), GORAVESHA_ITEMS_FULL, 0, 0);
  for (uint32_t item = 5; item < 7; item++) {
    start_vcas(0, item, 0, 1);
    expect_answer("a relink", finish(0), GORAVESHA_FINISHED, 1, 9);
  }
  expect_fullness("all nodes", 8, NODES, 1);
  start_vcas(0, 7, 0, 1);
  expect_answer("no node left", finish(0), GORAVESHA_NODES_FULL, 0, 4);
}

/* Several nodes wait: three vCAS lose to one, each gives its node back. */
static void several_wait(void) {
  fresh(NODES, COUNTER, 2);
  for (uint32_t worker = 0; worker < 3; worker++) {
    start_vcas(worker, 0, 1, 2);
    step(worker, 4);
  }
  expect("three hold a node", goravesha_nodes_used(words, count), 5);
  for (uint32_t worker = 0; worker < 3; worker++) expect("done", finish(worker), GORAVESHA_FINISHED);
  expect("nodes ever taken", words[7], 5);
  expect("two were given back", goravesha_nodes_used(words, count), 3);
  expect("a register", goravesha_register(words, count, 1, 1, &answer), GORAVESHA_ACCEPTED);
  expect("one waits", goravesha_nodes_used(words, count), 4);
}

/* The list of waiting nodes, damaged: a ring, a node never taken, and words past those lent. */
static void damaged_lists(void) {
  several_wait();
  uint32_t first = words[8];
  words[NODE_0 + 3 * (first - 1) + 1] = first;
  expect("a ring of waiting nodes", goravesha_nodes_used(words, count), 0);
  words[7] = 4196;
  expect("a ring is followed 4,096 times", goravesha_nodes_used(words, count), 100);
  words[7] = 5;
  words[8] = 6;
  expect("a waiting node never taken", goravesha_nodes_used(words, count), 5);
  words[8] = UINT32_MAX;
  words[7] = UINT32_MAX;
  expect("the largest numbers", goravesha_nodes_used(words, count), UINT32_MAX);
  words[8] = NODES + 1;
  expect("a node past the lent words", goravesha_nodes_used(words, count), UINT32_MAX);
  words[0] = UINT32_MAX;
  words[1] = UINT32_MAX;
  expect("nodes that start past the lent words", goravesha_nodes_used(words, count), 0);
  expect("a worker past the lent words", (uint64_t)goravesha_busy(words, count, UINT32_MAX - 1), 0);
}

/* Every count from 0 to the whole, the words of a catalogue with waiting nodes cut off there: a read past them is a fault. */
static void too_few(void) {
  static uint32_t kept[NEEDED];
  several_wait();
  start_take_snapshot(0);
  expect("a handle", finish(0), GORAVESHA_FINISHED);
  start_vcas(2, 1, 1, 2);
  memcpy(kept, words, sizeof kept);
  for (size_t few = 0; few <= NEEDED; few++) {
    lend(few);
    memcpy(words, kept, few * sizeof *words);
    int whole = few == NEEDED;
    expect("whole or not", (uint64_t)goravesha_lent_whole(words, count), (uint64_t)whole);
    expect_fullness("too few words, or all", whole ? 3 : 0, whole ? 4 : 0, whole ? 1 : 0);
    expect_busy("too few words, or all", 0, 0, whole);
    for (uint32_t worker = WORKERS; worker < 70; worker++) expect("no such worker", (uint64_t)goravesha_busy(words, count, worker), 0);
    if (few < NEEDED) expect_answer("finish with too few words", finish(2), GORAVESHA_DAMAGED, 0, 0);
  }
  expect_answer("finish with all words", finish(2), GORAVESHA_FINISHED, 1, 9);
}

/* Relinks of two items by all workers, in an order drawn at random, each started only while P or more nodes are left, and registers among them while more
   than P are left: no step is refused with 11. */
static void looked_before_each_relink(void) {
  enum { MOST_TURNS = 10000 };
  uint32_t drawn = 7;
  for (int round = 0; round < 2000; round++) {
    int under_way = 1, turns = 0;
    fresh(NODES, COUNTER, 2);
    for (uint32_t left = NODES; (left >= WORKERS || under_way) && turns < MOST_TURNS; turns++) {
      drawn = drawn * 1664525u + 1013904223u;
      uint32_t worker = (drawn >> 16) % WORKERS, item = drawn >> 31;
      left = NODES - goravesha_nodes_used(words, count);
      if (goravesha_busy(words, count, worker)) expect("no refusal in a step", goravesha_step(words, count, worker, &answer) < GORAVESHA_REFUSED, 1);
      else if ((drawn >> 12) % 8 == 0 && left > WORKERS && goravesha_items(words, count) < ITEMS)
        expect("a register", goravesha_register(words, count, 1, 1, &answer), GORAVESHA_ACCEPTED);
      else if (left >= WORKERS) start_vcas(worker, item, words[NODE_0 + 3 * words[16 + 16 * WORKERS + 4 * item]], 1 + (drawn >> 8) % 4);
      under_way = goravesha_busy(words, count, 0) || goravesha_busy(words, count, 1) || goravesha_busy(words, count, 2);
    }
    expect("the nodes come to an end", turns < MOST_TURNS, 1);
  }
}

/* Running operations in a file that is mapped twice, a step at one address and the next at the other; then the file's bytes, loaded elsewhere. */
static void mapped_and_loaded(void) {
  static uint32_t loaded[NEEDED];
  FILE *file = tmpfile();
  size_t bytes = NEEDED * sizeof(uint32_t);
  if (file == NULL || ftruncate(fileno(file), (off_t)bytes) != 0) exit(EXIT_FAILURE);
  uint32_t *place[2];
  for (int i = 0; i < 2; i++) {
    void *map = mmap(NULL, bytes, PROT_READ | PROT_WRITE, MAP_SHARED, fileno(file), 0);
    if (map == MAP_FAILED) exit(EXIT_FAILURE);
    place[i] = (uint32_t *)map;
  }
  expect("two addresses", place[0] != place[1], 1);
  fresh(NODES, COUNTER, 1);
  memcpy(place[0], words, bytes);
  words = place[0];
  start_vcas(0, 0, 1, 2);
  for (uint64_t steps = 1; steps < 7; steps++) {
    words = place[steps % 2];
    expect_answer("a step at the other address", goravesha_step(words, count, 0, &answer), GORAVESHA_RUNNING, 0, steps);
  }
  expect("a read of the whole file", fread(loaded, 1, bytes, file), bytes);
  words = loaded;
  expect_answer("the rest from the bytes", finish(0), GORAVESHA_FINISHED, 1, 9);
  words = place[0];
  expect_answer("the rest where it was", finish(0), GORAVESHA_FINISHED, 1, 9);
  expect("the same words", memcmp(loaded, place[1], bytes) == 0, 1);
  for (int i = 0; i < 2; i++) munmap(place[i], bytes);
  fclose(file);
}

/* Words drawn at random, of many counts: nothing is expected of the numbers but that each look stays within the words and comes to an end. */
static void at_random(void) {
  uint32_t drawn = 1;
  for (int round = 0; round < 200000; round++) {
    lend((drawn >> 8) % 200);
    for (size_t i = 0; i < count; i++) {
      drawn = drawn * 1664525u + 1013904223u;
      words[i] = drawn >> (drawn % 32);
    }
    uint32_t used = goravesha_nodes_used(words, count);
    int busy = goravesha_busy(words, count, drawn >> 28);
    expect("no more than were ever taken", used <= (count < 16 ? 0 : words[7]), 1);
    expect("1 or 0", busy == 0 || busy == 1, 1);
    drawn = drawn * 1664525u + 1013904223u;
  }
}

/* A sentence for each known code, each its own, and one for all others. */
static void texts(void) {
  static const uint32_t known[] = {GORAVESHA_FINISHED, GORAVESHA_RUNNING, GORAVESHA_ACCEPTED, GORAVESHA_BAD_SIZE, GORAVESHA_DAMAGED, GORAVESHA_NO_SUCH_WORKER,
                                   GORAVESHA_WORKER_BUSY, GORAVESHA_WORKER_IDLE, GORAVESHA_NOT_REGISTERED, GORAVESHA_NO_SUCH_PROJECT, GORAVESHA_NO_SUCH_HANDLE,
                                   GORAVESHA_BORN_LATER, GORAVESHA_ITEMS_FULL, GORAVESHA_NODES_FULL, GORAVESHA_COUNTER_FULL, GORAVESHA_BAD_FRAME};
  enum { KNOWN = sizeof known / sizeof *known };
  const char *unknown = goravesha_text(UINT32_MAX);
  expect("the sentence of an unknown code", strcmp(unknown, "This code is unknown to this version.") == 0, 1);
  uint32_t of_its_own = 0;
  for (uint32_t code = 0; code < 1000; code++) {
    const char *text = goravesha_text(code);
    expect("there is a sentence", text != NULL && strlen(text) > 20 && text[strlen(text) - 1] == '.', 1);
    if (strcmp(text, unknown) != 0) {
      expect("known codes in order", of_its_own < KNOWN && known[of_its_own] == code, 1);
      for (uint32_t other = 0; other < code; other++) expect("each its own", strcmp(text, goravesha_text(other)) != 0, 1);
      of_its_own++;
    }
  }
  expect("sentences", of_its_own, KNOWN);
  for (uint32_t n = 1; n <= 13; n++) expect("refusals are 16 + n", known[n + 2], GORAVESHA_REFUSED + n);
}

int main(void) {
  size_t bytes = ROOM_WORDS * sizeof(uint32_t);
  void *room = mmap(NULL, bytes + 4096, PROT_NONE, MAP_PRIVATE | MAP_ANONYMOUS, -1, 0);
  if (room == MAP_FAILED || mprotect(room, bytes, PROT_READ | PROT_WRITE) != 0) {
    perror("header: memory");
    return EXIT_FAILURE;
  }
  end = (uint32_t *)room + ROOM_WORDS;
  finishing();
  finishing_on_damaged_words();
  abandoning();
  how_full();
  several_wait();
  damaged_lists();
  too_few();
  looked_before_each_relink();
  mapped_and_loaded();
  at_random();
  texts();
  expect("version", (uint64_t)GORAVESHA_VERSION_NUMBER, 10000u * (uint32_t)atoi(GORAVESHA_VERSION) + 100u * (uint32_t)atoi(strchr(GORAVESHA_VERSION, '.') + 1) +
                                                      (uint32_t)atoi(strrchr(GORAVESHA_VERSION, '.') + 1));
  printf("%u checks, %u wrong\n", checks, wrong);
  return wrong == 0 ? EXIT_SUCCESS : EXIT_FAILURE;
}
