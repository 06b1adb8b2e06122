/*
 * Abandons a worker at each of the 35 phases. Each phase is reached from a fresh catalogue by calls alone, with and without nodes that wait to be taken
 * again. The archive and the oracle make every call, and after each the answer and every word must be the same. What an abandon may change is also said
 * here, without the oracle: the worker's record becomes zero, and where it held a node that node goes back. Then the same worker goes on.
 */
#include "oracle.h"

#include <inttypes.h>
#include <stdio.h>
#include <stdlib.h>
#include <string.h>

enum { WORKERS = 4, ITEMS = 2, NODES = 12, PROJECTS = 4, COUNTER = 9, COUNT = 16 + 16 * WORKERS + 4 * ITEMS + 3 * NODES };
enum { ABANDONED, RIVAL, THIRD, OTHER }; /* the workers */
enum { ITEM = 0, ANOTHER_ITEM = 1 };
/* The words, as docs/FIELDS.md has them: two of the header, some of the abandoned worker's record, the first of items and of nodes. */
enum { PRESENT_COUNTER = 5, GIVEN_BACK = 8, RECORD = 16 + 16 * ABANDONED, STEP_COUNT = RECORD + 1, NEW_NODE = RECORD + 9, SEEN = RECORD + 10 };
enum { FIRST_ITEM = 16 + 16 * WORKERS, FIRST_NODE = FIRST_ITEM + 4 * ITEMS };
/* The item goes from project 1 to the rival's; the abandoned vCAS would have it in a third. */
enum { BEFORE = 1, OF_THE_RIVAL = 2, OF_THE_ABANDONED = 3 };
static const uint32_t TOO_LARGE = UINT32_MAX - 1; /* for every word, since TBD is one more */

static uint32_t words[COUNT], told_words[COUNT];
static goravesha_answer answer;
static unsigned calls, wrong;
static const char *at = ""; /* what is being tried, */
static uint32_t at_phase;   /* and at which phase */

static void expect(const char *what, uint64_t got, uint64_t wanted) {
  if (got == wanted) return;
  fprintf(stderr, "abandon: phase %" PRIu32 ", %s: %s: %" PRIu64 ", expected %" PRIu64 "\n", at_phase, at, what, got, wanted);
  if (++wrong == 10) exit(EXIT_FAILURE);
}

static void expect_words(const char *what, const uint32_t *wanted) {
  char which[64];
  for (uint32_t word = 0; word < COUNT; word++) {
    if (words[word] == wanted[word]) continue;
    snprintf(which, sizeof which, "%s, word %" PRIu32, what, word);
    expect(which, words[word], wanted[word]);
  }
}

/* One call on both; its code. */
static uint32_t made(enum kind kind, uint32_t a, uint32_t b, uint32_t c, uint32_t d, uint32_t e) {
  const struct call call = {kind, {a, b, c, d, e}};
  answer = (goravesha_answer){7, 7, 7, 7};
  const uint32_t code = archive_call(&call, words, COUNT, &answer);
  const struct answer told = oracle_call(&call, told_words, COUNT);
  calls++;
  expect(kind_name[kind], code, told.code);
  expect("its value", answer.value, told.value);
  expect("its steps", answer.steps, told.steps);
  expect("its third and fourth number", answer.stamped | answer.operator_number, 0);
  expect_words("against the oracle", told_words);
  return code;
}

static void steps(uint32_t worker, unsigned number) {
  while (number-- > 0) expect("a step goes on", made(STEP, worker, 0, 0, 0, 0), GORAVESHA_RUNNING);
}

/* Steps until the operation ends: its value. */
static uint64_t finished(uint32_t worker) {
  uint32_t code;
  do code = made(STEP, worker, 0, 0, 0, 0);
  while (code == GORAVESHA_RUNNING);
  expect("the operation ends", code, GORAVESHA_FINISHED);
  return answer.value;
}

static void started(enum kind kind, uint32_t worker, uint32_t b, uint32_t c, uint32_t d) {
  expect(kind_name[kind], made(kind, worker, b, c, d, 0), GORAVESHA_ACCEPTED);
}

static uint64_t project_of_the_item(uint32_t worker) {
  started(START_VREAD, worker, ITEM, 0, 0);
  return finished(worker);
}

/* Three vCAS of another item that lose, so that their nodes wait: for the vCAS to be abandoned, for its rival, and one that still waits then. */
static void give_nodes_back(void) {
  for (uint32_t worker = 0; worker < OTHER; worker++) {
    started(START_VCAS, worker, ANOTHER_ITEM, BEFORE, OF_THE_RIVAL);
    steps(worker, 4);
  }
  started(START_VCAS, OTHER, ANOTHER_ITEM, BEFORE, OF_THE_RIVAL);
  expect("it wins", finished(OTHER), 1);
  for (uint32_t worker = 0; worker < OTHER; worker++) expect("it loses", finished(worker), 0);
}

/* Two items, so that a total has a second one to go on to, and a handle. */
static void fresh(int some_wait) {
  memset(words, 0xff, sizeof words);
  memcpy(told_words, words, sizeof words);
  expect("make", made(MAKE, WORKERS, ITEMS, NODES, PROJECTS, COUNTER), GORAVESHA_ACCEPTED);
  for (int item = 0; item < ITEMS; item++) expect("register", made(REGISTER, BEFORE, 100, 0, 0, 0), GORAVESHA_ACCEPTED);
  if (some_wait) give_nodes_back();
  started(START_TAKE_SNAPSHOT, OTHER, 0, 0, 0);
  expect("the handle", finished(OTHER), 0);
}

/*
 * How a phase is reached: the operation, how many steps, and after how many of them a rival changes the head, up to its line 46, so that the head is
 * still to be stamped. A rival before a vCAS has changed what it is to find there; one after line 45 makes it lose.
 */
enum { NO_RIVAL = -1 };
static const struct way {
  enum kind start;
  unsigned steps;
  int rival_after;
} way_to[PHASES] = {
    [1] = {START_VREAD, 0, NO_RIVAL}, [2] = {START_VREAD, 1, NO_RIVAL}, [3] = {START_VREAD, 2, 0}, [4] = {START_VREAD, 3, 0}, [5] = {START_VREAD, 2, NO_RIVAL},
    [6] = {START_VCAS, 0, NO_RIVAL}, [7] = {START_VCAS, 1, NO_RIVAL}, [8] = {START_VCAS, 2, 0}, [9] = {START_VCAS, 3, 0}, [10] = {START_VCAS, 2, NO_RIVAL},
    [11] = {START_VCAS, 3, NO_RIVAL}, [12] = {START_VCAS, 4, NO_RIVAL}, [13] = {START_VCAS, 5, NO_RIVAL}, [14] = {START_VCAS, 6, NO_RIVAL},
    [15] = {START_VCAS, 7, NO_RIVAL}, [16] = {START_VCAS, 8, NO_RIVAL}, [17] = {START_VCAS, 5, 4}, [18] = {START_VCAS, 6, 4}, [19] = {START_VCAS, 7, 4},
    [20] = {START_VCAS, 8, 4}, [21] = {START_VCAS, 9, 4}, [22] = {START_VCAS, 10, 4},
    [23] = {START_TAKE_SNAPSHOT, 0, NO_RIVAL}, [24] = {START_TAKE_SNAPSHOT, 1, NO_RIVAL},
    [25] = {START_READ_SNAPSHOT, 0, NO_RIVAL}, [26] = {START_READ_SNAPSHOT, 1, NO_RIVAL}, [27] = {START_READ_SNAPSHOT, 2, 0}, [28] = {START_READ_SNAPSHOT, 3, 0},
    [29] = {START_READ_SNAPSHOT, 2, NO_RIVAL},
    [30] = {START_TOTAL, 0, NO_RIVAL}, [31] = {START_TOTAL, 1, NO_RIVAL}, [32] = {START_TOTAL, 2, 0}, [33] = {START_TOTAL, 3, 0}, [34] = {START_TOTAL, 2, NO_RIVAL},
    [35] = {START_TOTAL, 6, NO_RIVAL},
};

static void rival_changes_the_head(void) {
  started(START_VCAS, RIVAL, ITEM, BEFORE, OF_THE_RIVAL);
  steps(RIVAL, 5);
}

static void start(enum kind kind, uint32_t old) {
  switch (kind) {
  case START_VCAS: started(kind, ABANDONED, ITEM, old, OF_THE_ABANDONED); break;
  case START_TOTAL: started(kind, ABANDONED, BEFORE, 0, 0); break;
  default: started(kind, ABANDONED, ITEM, 0, 0); break; /* with handle 0; a takeSnapshot has no arguments */
  }
}

static void reach(uint32_t phase, int some_wait) {
  const struct way *way = &way_to[phase];
  fresh(some_wait);
  if (way->rival_after == 0) rival_changes_the_head();
  start(way->start, way->rival_after == 0 ? OF_THE_RIVAL : BEFORE);
  for (unsigned step = 0; step < way->steps; step++) {
    if (way->rival_after > 0 && step == (unsigned)way->rival_after) rival_changes_the_head();
    steps(ABANDONED, 1);
  }
  expect("the phase that was to be reached", words[RECORD], phase);
}

static int holds_a_node(uint32_t phase) { return phase == 12 || phase == 17; }
static int has_published(uint32_t phase) { return phase >= 13 && phase <= 16; }

/* The words as an abandon must leave them, from what they were. */
static void expected_after(uint32_t phase, uint32_t *expected) {
  const uint32_t held = words[NEW_NODE];
  memcpy(expected, words, sizeof words);
  memset(expected + RECORD, 0, 16 * sizeof *expected);
  if (!holds_a_node(phase)) return;
  expected[FIRST_NODE + 3 * held + 1] = words[GIVEN_BACK];
  expected[GIVEN_BACK] = held + 1;
}

static void abandoned(uint32_t phase) {
  uint32_t expected[COUNT];
  expected_after(phase, expected);
  expect("abandon", made(ABANDON, ABANDONED, 0, 0, 0, 0), GORAVESHA_ACCEPTED);
  expect("its value", answer.value, 0);
  expect("its steps", answer.steps, 0);
  expect_words("after the abandon", expected);
}

static void refused(uint32_t worker, uint32_t number) {
  uint32_t kept[COUNT];
  memcpy(kept, words, sizeof words);
  expect("a refused abandon", made(ABANDON, worker, 0, 0, 0, 0), GORAVESHA_REFUSED + number);
  expect("words that it changed", memcmp(kept, words, sizeof words) != 0, 0);
}

/* The worker is free and every operation can be run; the rival, where there is one, ends as if nothing had been. */
static void go_on(uint32_t phase) {
  const int rival = way_to[phase].rival_after != NO_RIVAL;
  const uint32_t present = has_published(phase) ? OF_THE_ABANDONED : rival ? OF_THE_RIVAL : BEFORE;
  refused(ABANDONED, 5);
  expect("a read by another", project_of_the_item(OTHER), present);
  if (rival) expect("the rival's vCAS", finished(RIVAL), 1);
  started(START_VCAS, ABANDONED, ITEM, present, 0);
  expect("the next vCAS", finished(ABANDONED), 1);
  started(START_TAKE_SNAPSHOT, ABANDONED, 0, 0, 0);
  expect("the next snapshot", finished(ABANDONED), 1); /* one abandoned at line 6 has not moved the counter */
  started(START_READ_SNAPSHOT, ABANDONED, ITEM, 1, 0);
  expect("the next reading of a snapshot", finished(ABANDONED), 0);
  started(START_TOTAL, ABANDONED, 0, 1, 0);
  expect("the next total", finished(ABANDONED), 100);
}

/* Changes until no node is left: each of the N is a version then, so the abandon lost none. */
static void use_all_nodes(uint32_t phase, int some_wait) {
  const uint32_t published = (uint32_t)(has_published(phase) + (way_to[phase].rival_after != NO_RIVAL) + some_wait);
  uint32_t versions = ITEMS + published + 1, from = 0; /* and one change by go_on */
  expect("nodes in use", goravesha_nodes_used(words, COUNT), versions);
  for (; versions < NODES; versions++, from = 1 - from) {
    started(START_VCAS, ABANDONED, ITEM, from, 1 - from);
    expect("a change", finished(ABANDONED), 1);
  }
  expect("no node is left", made(REGISTER, 0, 0, 0, 0, 0) >= GORAVESHA_REFUSED, 1);
  started(START_VCAS, ABANDONED, ITEM, from, 1 - from);
  steps(ABANDONED, 3);
  expect("no node is left at line 45", made(STEP, ABANDONED, 0, 0, 0, 0), GORAVESHA_NODES_FULL);
}

/* An abandon with one word damaged is refused with 2, or made as if the word did not matter. */
static void with_word(uint32_t phase, const char *what, uint32_t word, uint32_t value, int matters) {
  uint32_t sound[COUNT];
  at = what;
  memcpy(sound, words, sizeof words);
  words[word] = told_words[word] = value;
  if (matters) refused(ABANDONED, 2);
  else abandoned(phase);
  memcpy(words, sound, sizeof words);
  memcpy(told_words, sound, sizeof words);
}

/* Which damage an abandon finds: of the header, of the worker's words as at a start, and of nodes where it gives one back. */
static void with_damage(uint32_t phase, int some_wait) {
  const uint32_t held = FIRST_NODE + 3 * words[NEW_NODE], waits = FIRST_NODE + 3 * (words[GIVEN_BACK] - 1);
  refused(WORKERS, 3);
  with_word(phase, "the header's counter too large", PRESENT_COUNTER, COUNTER + 1, 1);
  with_word(phase, "an unknown phase", RECORD, PHASES, 1);
  with_word(phase, "a step count that no step takes", STEP_COUNT, TOO_LARGE, 0);
  with_word(phase, "the item's head damaged", FIRST_ITEM, TOO_LARGE, 0);
  with_word(phase, "the item's birth stamp damaged", FIRST_ITEM + 1, TOO_LARGE, 0);
  if (phase == 24) with_word(phase, "the number read at 5 damaged", SEEN, TOO_LARGE, 0);
  if (!holds_a_node(phase)) return;
  with_word(phase, "the new node's number damaged", NEW_NODE, NODES, 1);
  with_word(phase, "the held node's value damaged", held, TOO_LARGE, 0);
  with_word(phase, "the held node's link damaged", held + 1, NODES + 1, 1);
  with_word(phase, "the held node's stamp damaged", held + 2, TOO_LARGE, 0);
  expect("whether a node still waits", words[GIVEN_BACK] != 0, (uint64_t)some_wait);
  if (!some_wait) return;
  for (uint32_t word = 0; word < 3; word++) with_word(phase, "the first node given back damaged", waits + word, TOO_LARGE, 1);
}

static void try_phase(uint32_t phase, int some_wait) {
  at_phase = phase;
  at = some_wait ? "nodes wait" : "no node waits";
  reach(phase, some_wait);
  with_damage(phase, some_wait);
  at = some_wait ? "nodes wait, afterwards" : "no node waits, afterwards";
  abandoned(phase);
  go_on(phase);
  use_all_nodes(phase, some_wait);
}

/* A published change whose worker is abandoned takes effect by the read that stamps it, after the snapshot that the same worker takes meanwhile. */
static void takes_effect_later(void) {
  at = "takes effect later";
  reach(at_phase = 13, 0);
  abandoned(13);
  started(START_VREAD, OTHER, ITEM, 0, 0);
  steps(OTHER, 2); /* line 20 has found that the node is still to be stamped */
  started(START_TAKE_SNAPSHOT, ABANDONED, 0, 0, 0);
  expect("the snapshot meanwhile", finished(ABANDONED), 1);
  expect("the read", finished(OTHER), OF_THE_ABANDONED);
  for (uint32_t handle = 0; handle < 2; handle++) {
    started(START_READ_SNAPSHOT, ABANDONED, ITEM, handle, 0);
    expect("the project at an earlier handle", finished(ABANDONED), BEFORE);
  }
  started(START_TAKE_SNAPSHOT, ABANDONED, 0, 0, 0);
  expect("the snapshot after it", finished(ABANDONED), 2);
  started(START_READ_SNAPSHOT, ABANDONED, ITEM, 2, 0);
  expect("the project at that handle", finished(ABANDONED), OF_THE_ABANDONED);
}

int main(void) {
  for (uint32_t phase = 1; phase < PHASES; phase++)
    for (int some_wait = 0; some_wait < 2; some_wait++) try_phase(phase, some_wait);
  takes_effect_later();
  printf("abandon: at each of %d phases, with and without nodes that wait: %u calls, %u wrong\n", PHASES - 1, calls, wrong);
  return wrong == 0 ? EXIT_SUCCESS : EXIT_FAILURE;
}
