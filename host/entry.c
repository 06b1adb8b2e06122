/*
 * A test of the exported calls as C has them: a catalogue is made, document 01's listing is run and its answers printed, and then the calls are
 * made on words that are no catalogue at all, where each must answer its fixed number and change no word.
 */
#include "goravesha.h"

#include <stdio.h>
#include <stdlib.h>
#include <string.h>

static uint32_t words[GORAVESHA_WORDS(64, 256, 4096)];
static uint32_t kept[GORAVESHA_WORDS(64, 256, 4096)];
static unsigned wrong;

static void print(uint32_t code, goravesha_answer *answer) {
  printf("%02x%016llx%04llx\n", (unsigned)code, (unsigned long long)answer->value, (unsigned long long)answer->steps);
}

static void listing(size_t count) {
  goravesha_answer answer;
  print(goravesha_make(words, count, 2, 2, 8, 4, 16, &answer), &answer);
  print(goravesha_register(words, count, 1, 100, &answer), &answer);
  print(goravesha_start_take_snapshot(words, count, 0, &answer), &answer);
  for (int i = 0; i < 2; i++) print(goravesha_step(words, count, 0, &answer), &answer);
  print(goravesha_start_vcas(words, count, 1, 0, 1, 2, &answer), &answer);
  for (int i = 0; i < 5; i++) print(goravesha_step(words, count, 1, &answer), &answer);
  print(goravesha_start_read_snapshot(words, count, 0, 0, 0, &answer), &answer);
  for (int i = 0; i < 6; i++) print(goravesha_step(words, count, 0, &answer), &answer);
}

enum { CALLS = 8 };

/* Every call but make, with arguments that would be good. */
static uint32_t call(int which, size_t count, goravesha_answer *answer) {
  switch (which) {
    case 0: return goravesha_register(words, count, 1, 100, answer);
    case 1: return goravesha_start_vread(words, count, 0, 0, answer);
    case 2: return goravesha_start_vcas(words, count, 0, 0, 1, 2, answer);
    case 3: return goravesha_start_take_snapshot(words, count, 0, answer);
    case 4: return goravesha_start_read_snapshot(words, count, 0, 0, 0, answer);
    case 5: return goravesha_start_total(words, count, 0, 1, 0, answer);
    case 6: return goravesha_step(words, count, 0, answer);
    default: return goravesha_abandon(words, count, 0, answer);
  }
}

/* A call must answer this code, value 0, steps 0, and, where it is refused, change no word. */
static void expect(const char *what, int which, size_t count, uint32_t code) {
  goravesha_answer answer = {7, 7, 7, 7};
  memcpy(kept, words, sizeof words);
  uint32_t got = call(which, count, &answer);
  if (got != code || answer.value || answer.steps || answer.stamped || answer.operator_number || (code >= GORAVESHA_REFUSED && memcmp(kept, words, sizeof words))) {
    fprintf(stderr, "entry: %s: call %d with %zu words answered %u (expected %u), or changed a word\n", what, which, count, got, code);
    wrong++;
  }
}

static void expect_make(size_t count, uint32_t p, uint32_t m, uint32_t n, uint32_t q, uint32_t c, uint32_t code) {
  goravesha_answer answer = {7, 7, 7, 7};
  memcpy(kept, words, sizeof words);
  uint32_t got = goravesha_make(words, count, p, m, n, q, c, &answer);
  int same = !memcmp(kept, words, sizeof words);
  if (got != code || answer.value || answer.steps || (code != GORAVESHA_ACCEPTED && !same)) {
    fprintf(stderr, "entry: make %u %u %u %u %u with %zu words answered %u (expected %u), or changed a word\n", p, m, n, q, c, count, got, code);
    wrong++;
  }
}

static void fresh(size_t count) {
  goravesha_answer answer;
  memset(words, 0, sizeof words);
  if (goravesha_make(words, count, 2, 2, 8, 4, 16, &answer) != GORAVESHA_ACCEPTED) wrong++;
}

/* Words that hold no catalogue, and too few words. */
static void no_catalogue(size_t count) {
  const uint32_t damaged = GORAVESHA_REFUSED + 2;
  memset(words, 0xff, sizeof words);
  for (int which = 0; which < CALLS; which++) expect("all ones", which, count, damaged);
  memset(words, 0, sizeof words);
  for (int which = 0; which < CALLS; which++) expect("all zero", which, count, damaged);
  fresh(count);
  for (size_t few = 0; few <= 16; few++) {
    for (int which = 0; which < CALLS; which++) expect("too short", which, few, damaged);
    expect_make(few, 1, 1, 1, 1, 1, GORAVESHA_REFUSED + 1);
  }
  expect_make(count - 1, 2, 2, 8, 4, 16, GORAVESHA_REFUSED + 1);
}

/* Each header word at 0, at its limit and one past it: sizes with their own limits, the rest with the limits that the header gives. A P, M or N at
   its limit asks for more words than are lent here. What is accepted is no damage; 'accepted' stands for a call that changes words. */
enum { HEADER = 9, ok = GORAVESHA_ACCEPTED, no2 = 18, no5 = 21, no6 = 22, no8 = 24, no10 = 26, no11 = 27 };
static const uint32_t limit[HEADER] = {64, 256, 4096, 256, 4294967294u, 16, 2, 8, 0};
static const uint32_t at_zero[HEADER][CALLS] = {
    {no2, no2, no2, no2, no2, no2, no2, no2}, {no2, no2, no2, no2, no2, no2, no2, no2}, {no2, no2, no2, no2, no2, no2, no2, no2},
    {no2, no2, no2, no2, no2, no2, no2, no2}, {no2, no2, no2, no2, no2, no2, no2, no2}, {ok, no6, no6, ok, no6, no8, no5, no5},
    {ok, no6, no6, ok, no6, no8, no5, no5},   {ok, no6, no6, ok, no6, no8, no5, no5},   {ok, no6, no6, ok, no6, no8, no5, no5}};
static const uint32_t at_limit[HEADER][CALLS] = {
    {no2, no2, no2, no2, no2, no2, no2, no2}, {no2, no2, no2, no2, no2, no2, no2, no2},  {no2, no2, no2, no2, no2, no2, no2, no2},
    {ok, no6, no6, ok, no6, no8, no5, no5},   {ok, no6, no6, ok, no6, no8, no5, no5},    {ok, no6, no6, ok, no6, ok, no5, no5},
    {no10, no2, no2, ok, no2, no8, no5, no5}, {no11, no6, no6, ok, no6, no8, no5, no5}, {ok, no6, no6, ok, no6, no8, no5, no5}};

static void with_header_word(const char *what, size_t count, int word, uint32_t value, int which, uint32_t code) {
  fresh(count);
  words[word] = value;
  expect(what, which, count, code);
}

static void header_words(size_t count) {
  for (int word = 0; word < HEADER; word++) {
    for (int which = 0; which < CALLS; which++) {
      with_header_word("past the limit", count, word, limit[word] + 1, which, no2);
      with_header_word("zero", count, word, 0, which, at_zero[word][which]);
      with_header_word("at the limit", count, word, limit[word], which, at_limit[word][which]);
    }
  }
}

/* The sizes that make takes, and those one past them. The first five header words are these sizes. */
static void sizes(void) {
  const size_t all = sizeof words / sizeof words[0];
  for (int which = 0; which < 5; which++) {
    uint32_t size[5] = {1, 1, 1, 1, 1};
    size[which] = 0;
    expect_make(all, size[0], size[1], size[2], size[3], size[4], GORAVESHA_REFUSED + 1);
    size[which] = limit[which] + 1;
    expect_make(all, size[0], size[1], size[2], size[3], size[4], GORAVESHA_REFUSED + 1);
    size[which] = limit[which];
    expect_make(all, size[0], size[1], size[2], size[3], size[4], GORAVESHA_ACCEPTED);
  }
}

int main(void) {
  const size_t count = GORAVESHA_WORDS(2, 2, 8);
  listing(count);
  no_catalogue(count);
  header_words(count);
  sizes();
  if (wrong) {
    fprintf(stderr, "entry: %u answers were wrong\n", wrong);
    return EXIT_FAILURE;
  }
  return EXIT_SUCCESS;
}
