/* Tables of words for the tests: sound ones, those of a real run, damaged ones, and words drawn at random; and calls to make on them. */
#ifndef GORAVESHA_TABLES_H
#define GORAVESHA_TABLES_H

#include "oracle.h"

enum { MOST_WORDS = 16384 };

struct table {
  size_t count;
  uint32_t words[MOST_WORDS];
};

/* A generator of numbers (splitmix64): the same seed gives the same tables and calls. */
struct draw {
  uint64_t state;
};

static inline uint32_t draw_word(struct draw *draw) {
  uint64_t z = draw->state += 0x9e3779b97f4a7c15u;
  z = (z ^ (z >> 30)) * 0xbf58476d1ce4e5b9u;
  z = (z ^ (z >> 27)) * 0x94d049bb133111ebu;
  return (uint32_t)((z ^ (z >> 31)) >> 32);
}

/* A number below n; n is not 0. */
static inline uint32_t draw_below(struct draw *draw, uint32_t n) { return (uint32_t)(((uint64_t)draw_word(draw) * n) >> 32); }

/* True once in n times. */
static inline int draw_once_in(struct draw *draw, uint32_t n) { return draw_below(draw, n) == 0; }

/* A fresh catalogue, then a run of calls from make, by the oracle alone. Once in so many the sizes are the largest. */
void table_of_a_run(struct table *table, struct draw *draw, uint32_t large_once_in);
/* Every word within its range, but of no run; and now and then words that some calls test and others do not: a step count of 5,121 or more, at line 6
 * a number read that is C, a node never used that is damaged; and a birth stamp of TBD. */
void table_in_range(struct table *table, struct draw *draw);
/* Words drawn at random, with a taste for limits. */
void table_at_random(struct table *table, struct draw *draw);
/* Some words of a table, each drawn anew at random or moved by one. */
void damage(struct table *table, struct draw *draw, unsigned words);
/* A call whose arguments mostly fit the words, and sometimes are extreme. */
struct call draw_call(const uint32_t *words, size_t count, struct draw *draw);

#endif
