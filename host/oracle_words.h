/*
 * For the oracle's two files alone: the lent words as records, the columns of the table of phases, and the tests of damage. oracle_words.c has the
 * table and the tests, oracle.c the calls. Every member of a record is a uint32_t, so that a record laid over the words reads and writes them as what they are.
 */
#ifndef GORAVESHA_ORACLE_WORDS_H
#define GORAVESHA_ORACLE_WORDS_H

#include "oracle.h"

#include <stdbool.h>

/* ---- The lent words: header, workers, items, nodes, in the words of docs/FIELDS.md ---- */

static const uint32_t TBD = 4294967295u;

struct header {
  uint32_t workers, items_limit, nodes_limit, projects, counter_limit; /* P, M, N, Q, C */
  uint32_t counter, items, used, given_back, unused[7];                /* given_back: a node number plus one; 0: none waits */
};

struct worker {
  uint32_t phase, steps, item, old, new, handle, project, noted, node, new_node, seen, sum_low, sum_high, unused[3];
};

struct item {
  uint32_t head, birth, size, unused;
};

struct node {
  uint32_t value, older, stamp; /* older: a node number plus one; 0: none */
};

_Static_assert(sizeof(struct header) == 16 * sizeof(uint32_t), "a header is 16 words");
_Static_assert(sizeof(struct worker) == 16 * sizeof(uint32_t), "a worker is 16 words");
_Static_assert(sizeof(struct item) == 4 * sizeof(uint32_t), "an item is 4 words");
_Static_assert(sizeof(struct node) == 3 * sizeof(uint32_t), "a node is 3 words");

struct catalogue {
  struct header *header;
  struct worker *workers;
  struct item *items;
  struct node *nodes;
};

size_t needed_words(uint32_t workers, uint32_t items, uint32_t nodes);
/* The four parts of the words. Only for a header that is not damaged: its sizes say where the parts begin. */
struct catalogue parts_of(uint32_t *words);
uint64_t running_sum(const struct worker *worker);

/* ---- The table of phases ---- */

enum operation { IDLE, VREAD, VCAS, TAKE_SNAPSHOT, READ_SNAPSHOT, TOTAL };

/* Where each operation begins; a total begins at its first item, or at the closing step if there is none. */
enum { VREAD_BEGINS = 1, VCAS_BEGINS = 6, TAKE_SNAPSHOT_BEGINS = 23, READ_SNAPSHOT_BEGINS = 25, TOTAL_ITEM_BEGINS = 30, TOTAL_CLOSES = 35 };

/* Column `kept`: the words of the record, besides the arguments, that a phase has in use, at a start as at a step. */
enum kept { KEPT_NODE = 1, KEPT_NEW = 2, KEPT_SEEN = 4 };

/* Column `node_words`: the words of nodes that a step has in use. */
enum node_words { NO_WORDS, ITS_STAMP, ITS_VALUE, NODE_TAKEN, NODES_GIVEN, NODE_TESTED };

/* Every phase but 0, 23, 24 and 35. */
bool inside_an_item(const struct phase_row *row);

/* ---- Damaged: a word this call uses is outside its range ---- */

/* The ranges of P, M, N, Q and C: refusal 1 to make, damage in a header. */
bool sizes_outside(uint32_t workers, uint32_t items, uint32_t nodes, uint32_t projects, uint32_t counter);
bool header_damaged(const uint32_t *words, size_t count);
/* A worker's record, at a start, a step and an abandon; and, of a worker whose phase is known, what is tested before a step alone. */
bool worker_damaged(const struct header *header, const struct worker *worker);
bool before_a_step_damaged(const struct header *header, const struct worker *worker);
bool item_damaged(const struct header *header, const struct item *item);
/* One word of a node, and all three. */
bool value_damaged(const struct header *header, const struct node *node);
bool older_damaged(const struct header *header, const struct node *node);
bool stamp_damaged(const struct header *header, const struct node *node);
bool node_damaged(const struct header *header, const struct node *node);
/* Register, 45 and 50, and an abandon in place of 50, use the first node given back, where one waits. */
bool first_given_back_damaged(struct catalogue catalogue);
/* Line 50, and an abandon in its place, write the link of the node that goes back, before the first node given back. */
bool nodes_given_damaged(struct catalogue catalogue, uint32_t number);
/* Line 34 uses the stamp, which H made valid, then the older node where it goes on and the value where it does not. */
bool tested_node_damaged(const struct header *header, const struct node *node, uint32_t handle);

#endif
