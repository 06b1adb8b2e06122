/*
 * What document 01 calls damaged, in C: which of the lent words a call uses and in which range each must be, by docs/FIELDS.md's table of phases. The calls
 * are in oracle.c, and so is the test of the nodes that a step uses. Nothing here follows a number found in the words before it was tested against its range.
 */
#include "oracle_words.h"

/* ---- The lent words ---- */

size_t needed_words(uint32_t workers, uint32_t items, uint32_t nodes) {
  return 16 + 16 * (size_t)workers + 4 * (size_t)items + 3 * (size_t)nodes;
}

struct catalogue parts_of(uint32_t *words) {
  struct header *header = (struct header *)words;
  struct worker *workers = (struct worker *)(words + 16);
  struct item *items = (struct item *)(workers + header->workers);
  struct node *nodes = (struct node *)(items + header->items_limit);
  return (struct catalogue){header, workers, items, nodes};
}

uint64_t running_sum(const struct worker *worker) {
  return ((uint64_t)worker->sum_high << 32) + worker->sum_low;
}

/* ---- The table of phases ---- */

const struct phase_row phase_rows[PHASES] = {
    /* operation, line, may answer, kept, node words, goes on at, otherwise at */
    [0] = {IDLE, 0, 0, 0, NO_WORDS, 0, 0},
    [1] = {VREAD, 37, 0, 0, NO_WORDS, 2, 0},
    [2] = {VREAD, 20, 0, KEPT_NODE, ITS_STAMP, 3, 5},
    [3] = {VREAD, 21, 0, KEPT_NODE, NO_WORDS, 4, 0},
    [4] = {VREAD, 22, 0, KEPT_NODE | KEPT_SEEN, ITS_STAMP, 5, 0},
    [5] = {VREAD, 39, 1, KEPT_NODE, ITS_VALUE, 0, 0},
    [6] = {VCAS, 41, 0, 0, NO_WORDS, 7, 0},
    [7] = {VCAS, 20, 0, KEPT_NODE, ITS_STAMP, 8, 10},
    [8] = {VCAS, 21, 0, KEPT_NODE, NO_WORDS, 9, 0},
    [9] = {VCAS, 22, 0, KEPT_NODE | KEPT_SEEN, ITS_STAMP, 10, 0},
    [10] = {VCAS, 43, 1, KEPT_NODE, ITS_VALUE, 11, 0},
    [11] = {VCAS, 45, 0, KEPT_NODE, NODE_TAKEN, 12, 0},
    [12] = {VCAS, 46, 0, KEPT_NODE | KEPT_NEW, NO_WORDS, 13, 17},
    [13] = {VCAS, 20, 0, KEPT_NODE, ITS_STAMP, 14, 16},
    [14] = {VCAS, 21, 0, KEPT_NODE, NO_WORDS, 15, 0},
    [15] = {VCAS, 22, 0, KEPT_NODE | KEPT_SEEN, ITS_STAMP, 16, 0},
    [16] = {VCAS, 48, 1, 0, NO_WORDS, 0, 0},
    [17] = {VCAS, 50, 0, KEPT_NEW, NODES_GIVEN, 18, 0},
    [18] = {VCAS, 51, 0, 0, NO_WORDS, 19, 0},
    [19] = {VCAS, 20, 0, KEPT_NODE, ITS_STAMP, 20, 22},
    [20] = {VCAS, 21, 0, KEPT_NODE, NO_WORDS, 21, 0},
    [21] = {VCAS, 22, 0, KEPT_NODE | KEPT_SEEN, ITS_STAMP, 22, 0},
    [22] = {VCAS, 52, 1, 0, NO_WORDS, 0, 0},
    [23] = {TAKE_SNAPSHOT, 5, 0, 0, NO_WORDS, 24, 0},
    [24] = {TAKE_SNAPSHOT, 6, 1, 0, NO_WORDS, 0, 0},
    [25] = {READ_SNAPSHOT, 32, 0, 0, NO_WORDS, 26, 0},
    [26] = {READ_SNAPSHOT, 20, 0, KEPT_NODE, ITS_STAMP, 27, 29},
    [27] = {READ_SNAPSHOT, 21, 0, KEPT_NODE, NO_WORDS, 28, 0},
    [28] = {READ_SNAPSHOT, 22, 0, KEPT_NODE | KEPT_SEEN, ITS_STAMP, 29, 0},
    [29] = {READ_SNAPSHOT, 34, 1, KEPT_NODE, NODE_TESTED, 29, 0},
    [30] = {TOTAL, 32, 0, 0, NO_WORDS, 31, 0},
    [31] = {TOTAL, 20, 0, KEPT_NODE, ITS_STAMP, 32, 34},
    [32] = {TOTAL, 21, 0, KEPT_NODE, NO_WORDS, 33, 0},
    [33] = {TOTAL, 22, 0, KEPT_NODE | KEPT_SEEN, ITS_STAMP, 34, 0},
    [34] = {TOTAL, 34, 0, KEPT_NODE, NODE_TESTED, 34, 0},
    [35] = {TOTAL, 0, 1, 0, NO_WORDS, 0, 0},
};

/* Only idle and the closing step have line 0. */
bool inside_an_item(const struct phase_row *row) {
  return row->line != 0 && row->operation != TAKE_SNAPSHOT;
}

/* ---- Damaged: a word this call uses is outside its range ---- */

/*
 * Four points are easily read more widely than document 01 writes them: 'a step count below 5,121 before a step' and 'the number read at 5 below
 * C when 6 runs' are tests of a step and of no start (before_a_step_damaged); 'stamps at most the counter or TBD' holds for a birth stamp as for a node's
 * (stamp_outside); and register, which has no line, uses of the nodes 'the first node given back' alone (first_given_back_damaged).
 */

static bool outside(uint32_t number, uint32_t least, uint32_t most) {
  return number < least || number > most;
}

bool sizes_outside(uint32_t workers, uint32_t items, uint32_t nodes, uint32_t projects, uint32_t counter) {
  if (outside(workers, 1, 64)) return true;
  if (outside(items, 1, 256)) return true;
  if (outside(nodes, 1, 4096)) return true;
  if (outside(projects, 1, 256)) return true;
  return outside(counter, 1, 4294967294u);
}

bool header_damaged(const uint32_t *words, size_t count) {
  if (count < 16) return true;
  const struct header *header = (const struct header *)words;
  if (sizes_outside(header->workers, header->items_limit, header->nodes_limit, header->projects, header->counter_limit)) return true;
  if (header->counter > header->counter_limit) return true;
  if (header->items > header->items_limit) return true;
  if (header->used > header->nodes_limit) return true;
  if (header->given_back > header->used) return true;
  return count < needed_words(header->workers, header->items_limit, header->nodes_limit);
}

/* A running operation's arguments are in use at each of its phases. */
static bool arguments_damaged(const struct header *header, const struct worker *worker, const struct phase_row *row) {
  switch (row->operation) {
  case VREAD: return worker->item >= header->items;
  case VCAS: return worker->item >= header->items || worker->old >= header->projects || worker->new >= header->projects;
  case READ_SNAPSHOT: return worker->item >= header->items || worker->handle >= header->counter;
  case TOTAL:
    if (worker->project >= header->projects) return true;
    if (worker->handle >= header->counter) return true; /* a handle is below the counter */
    if (worker->noted > header->items) return true;
    if (worker->item > worker->noted) return true;
    if (inside_an_item(row) && worker->item == worker->noted) return true;
    return running_sum(worker) > (uint64_t)1 << 40;
  default: return false; /* takeSnapshot has none */
  }
}

static bool kept_words_damaged(const struct header *header, const struct worker *worker, const struct phase_row *row) {
  if (row->kept & KEPT_NODE && worker->node >= header->used) return true;
  if (row->kept & KEPT_NEW && worker->new_node >= header->used) return true;
  return row->kept & KEPT_SEEN && worker->seen > header->counter;
}

bool worker_damaged(const struct header *header, const struct worker *worker) {
  if (worker->phase >= PHASES) return true;
  const struct phase_row *row = &phase_rows[worker->phase];
  if (row->operation == IDLE) return false; /* an idle worker's other words are not in use */
  return arguments_damaged(header, worker, row) || kept_words_damaged(header, worker, row);
}

bool before_a_step_damaged(const struct header *header, const struct worker *worker) {
  const struct phase_row *row = &phase_rows[worker->phase];
  if (row->operation == IDLE) return false; /* no step comes */
  if (worker->steps >= 5121) return true;
  return row->line == 6 && worker->seen >= header->counter_limit; /* line 6 may store one more */
}

static bool stamp_outside(const struct header *header, uint32_t stamp) {
  return stamp > header->counter && stamp != TBD;
}

bool item_damaged(const struct header *header, const struct item *item) {
  return item->head >= header->used || stamp_outside(header, item->birth);
}

bool value_damaged(const struct header *header, const struct node *node) {
  return node->value >= header->projects;
}

bool older_damaged(const struct header *header, const struct node *node) {
  return node->older > header->used;
}

bool stamp_damaged(const struct header *header, const struct node *node) {
  return stamp_outside(header, node->stamp);
}

bool node_damaged(const struct header *header, const struct node *node) {
  return value_damaged(header, node) || older_damaged(header, node) || stamp_damaged(header, node);
}

bool first_given_back_damaged(struct catalogue catalogue) {
  const struct header *header = catalogue.header;
  return header->given_back != 0 && node_damaged(header, &catalogue.nodes[header->given_back - 1]);
}

bool nodes_given_damaged(struct catalogue catalogue, uint32_t number) {
  return older_damaged(catalogue.header, &catalogue.nodes[number]) || first_given_back_damaged(catalogue);
}

bool tested_node_damaged(const struct header *header, const struct node *node, uint32_t handle) {
  if (node->stamp > header->counter) return true; /* so is TBD */
  if (node->stamp > handle) return node->older == 0 || older_damaged(header, node);
  return value_damaged(header, node);
}
