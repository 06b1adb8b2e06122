/* The twin of the proved calls, for the benchmarks: see twin.h. The same words, the same checks, the same table of phases, by hand. */
#include "twin.h"

#include <string.h>

struct header {
  uint32_t workers, items_limit, nodes_limit, projects, counter_limit, counter, items, used, given_back, unused[7];
};
struct worker {
  uint32_t phase, steps, item, old, new, handle, project, noted, node, new_node, seen, sum_low, sum_high, unused[3];
};
struct item {
  uint32_t head, birth, size, unused;
};
struct node {
  uint32_t value, older, stamp;
};

static const uint32_t TBD = UINT32_MAX;
enum { VREAD = 1, VCAS, TAKE_SNAPSHOT, READ_SNAPSHOT, TOTAL };
enum { NODE = 1, NEW_NODE = 2 };

struct row {
  unsigned char operation, line, may_answer, keeps;
};
#define HELP(operation) {operation, 20, 0, NODE}, {operation, 21, 0, NODE}, {operation, 22, 0, NODE}
static const struct row rows[36] = {
  {0, 0, 0, 0},
  {VREAD, 37, 0, 0}, HELP(VREAD), {VREAD, 39, 1, NODE},
  {VCAS, 41, 0, 0}, HELP(VCAS), {VCAS, 43, 1, NODE}, {VCAS, 45, 0, NODE}, {VCAS, 46, 0, NODE | NEW_NODE}, HELP(VCAS), {VCAS, 48, 1, 0},
  {VCAS, 50, 0, NEW_NODE}, {VCAS, 51, 0, 0}, HELP(VCAS), {VCAS, 52, 1, 0},
  {TAKE_SNAPSHOT, 5, 0, 0}, {TAKE_SNAPSHOT, 6, 1, 0},
  {READ_SNAPSHOT, 32, 0, 0}, HELP(READ_SNAPSHOT), {READ_SNAPSHOT, 34, 1, NODE},
  {TOTAL, 32, 0, 0}, HELP(TOTAL), {TOTAL, 34, 0, NODE}, {TOTAL, 0, 1, 0},
};

static inline uint32_t tell(goravesha_answer *answer, uint32_t code, uint64_t value, uint32_t steps) {
  *answer = (goravesha_answer){.value = value, .steps = steps};
  return code;
}

static inline uint32_t refuse(goravesha_answer *answer, uint32_t number) { return tell(answer, GORAVESHA_REFUSED + number, 0, 0); }

static inline int sizes_outside(uint32_t p, uint32_t m, uint32_t n, uint32_t q, uint32_t c) {
  return p - 1 >= 64 || m - 1 >= 256 || n - 1 >= 4096 || q - 1 >= 256 || c - 1 >= 4294967294u;
}

static inline int header_damaged(const uint32_t *words, size_t count) {
  if (count < 16) return 1;
  const struct header *h = (const struct header *)words;
  return sizes_outside(h->workers, h->items_limit, h->nodes_limit, h->projects, h->counter_limit) || h->counter > h->counter_limit ||
         h->items > h->items_limit || h->used > h->nodes_limit || h->given_back > h->used ||
         count < GORAVESHA_WORDS(h->workers, h->items_limit, h->nodes_limit);
}

static inline struct worker *worker_at(uint32_t *words, uint32_t worker) { return (struct worker *)(words + 16) + worker; }
static inline struct item *item_at(uint32_t *words, uint32_t item) { return (struct item *)(words + 16 + 16 * words[0]) + item; }
static inline struct node *nodes_at(uint32_t *words) { return (struct node *)(words + 16 + 16 * words[0] + 4 * words[1]); }

static inline uint64_t sum_of(const struct worker *w) { return (uint64_t)w->sum_high << 32 | w->sum_low; }

static inline int running_damaged(const struct header *h, const struct worker *w, struct row row) {
  switch (row.operation) {
    case VREAD: if (w->item >= h->items) return 1; break;
    case VCAS: if (w->item >= h->items || w->old >= h->projects || w->new >= h->projects) return 1; break;
    case TAKE_SNAPSHOT: break;
    case READ_SNAPSHOT: if (w->item >= h->items || w->handle >= h->counter) return 1; break;
    default:
      if (w->project >= h->projects || w->handle >= h->counter || w->noted > h->items || w->item > w->noted) return 1;
      if ((row.line != 0 && w->item == w->noted) || sum_of(w) > (uint64_t)1 << 40) return 1;
  }
  if ((row.keeps & NODE) && w->node >= h->used) return 1;
  if ((row.keeps & NEW_NODE) && w->new_node >= h->used) return 1;
  return row.line == 22 && w->seen > h->counter;
}

static inline int worker_damaged(const struct header *h, const struct worker *w) {
  return w->phase > 35 || (w->phase != 0 && running_damaged(h, w, rows[w->phase]));
}

static inline int stamp_damaged(const struct header *h, uint32_t stamp) { return stamp > h->counter && stamp != TBD; }
static inline int item_damaged(const struct header *h, const struct item *i) { return i->head >= h->used || stamp_damaged(h, i->birth); }
static inline int node_damaged(const struct header *h, const struct node *n) {
  return n->value >= h->projects || n->older > h->used || stamp_damaged(h, n->stamp);
}

static inline uint32_t go_on(goravesha_answer *answer, struct worker *w, uint32_t phase) {
  w->phase = phase;
  return tell(answer, GORAVESHA_RUNNING, 0, ++w->steps);
}

static inline uint32_t end(goravesha_answer *answer, struct worker *w, uint32_t code, uint64_t value) {
  uint32_t steps = w->steps + 1;
  memset(w, 0, sizeof *w);
  return tell(answer, code, value, steps);
}

static inline uint32_t next_item(goravesha_answer *answer, struct worker *w) { return go_on(answer, w, ++w->item == w->noted ? 35 : 30); }

uint32_t twin_make(uint32_t *words, size_t count, uint32_t workers, uint32_t items, uint32_t nodes, uint32_t projects, uint32_t counter,
                   goravesha_answer *answer) {
  if (sizes_outside(workers, items, nodes, projects, counter) || count < GORAVESHA_WORDS(workers, items, nodes)) return refuse(answer, 1);
  memset(words, 0, GORAVESHA_WORDS(workers, items, nodes) * sizeof *words);
  words[0] = workers, words[1] = items, words[2] = nodes, words[3] = projects, words[4] = counter;
  return tell(answer, GORAVESHA_ACCEPTED, 0, 0);
}

/* The number of the node to take; N where there is none. */
static inline uint32_t next_node(const struct header *h) { return h->given_back != 0 ? h->given_back - 1 : h->used; }

static inline void take(struct header *h, const struct node *taken) {
  if (h->given_back != 0) h->given_back = taken->older;
  else h->used++;
}

uint32_t twin_register(uint32_t *words, size_t count, uint32_t value, uint32_t size, goravesha_answer *answer) {
  struct header *h = (struct header *)words;
  if (header_damaged(words, count)) return refuse(answer, 2);
  if (value >= h->projects) return refuse(answer, 7);
  if (h->items == h->items_limit) return refuse(answer, 10);
  uint32_t number = next_node(h);
  if (number == h->nodes_limit) return refuse(answer, 11);
  struct node *taken = nodes_at(words) + number;
  if (h->given_back != 0 && node_damaged(h, taken)) return refuse(answer, 2);
  take(h, taken);
  *taken = (struct node){value, 0, h->counter};
  struct item *item = item_at(words, h->items);
  item->head = number, item->birth = h->counter, item->size = size;
  return tell(answer, GORAVESHA_ACCEPTED, h->items++, 0);
}

/* What a start tests first. */
static inline uint32_t worker_refusal(uint32_t *words, size_t count, uint32_t worker) {
  const struct header *h = (const struct header *)words;
  if (header_damaged(words, count)) return 2;
  if (worker >= h->workers) return 3;
  const struct worker *w = worker_at(words, worker);
  if (worker_damaged(h, w)) return 2;
  return w->phase != 0 ? 4 : 0;
}

static inline uint32_t item_refusal(uint32_t *words, uint32_t item) {
  const struct header *h = (const struct header *)words;
  if (item >= h->items) return 6;
  return item_damaged(h, item_at(words, item)) ? 2 : 0;
}

static inline uint32_t start(uint32_t *words, uint32_t worker, struct worker record, goravesha_answer *answer) {
  *worker_at(words, worker) = record;
  return tell(answer, GORAVESHA_ACCEPTED, 0, 0);
}

uint32_t twin_start_vread(uint32_t *words, size_t count, uint32_t worker, uint32_t item, goravesha_answer *answer) {
  uint32_t number = worker_refusal(words, count, worker);
  if (number != 0 || (number = item_refusal(words, item)) != 0) return refuse(answer, number);
  return start(words, worker, (struct worker){.phase = 1, .item = item}, answer);
}

uint32_t twin_start_vcas(uint32_t *words, size_t count, uint32_t worker, uint32_t item, uint32_t old_project, uint32_t new_project,
                         goravesha_answer *answer) {
  uint32_t number = worker_refusal(words, count, worker);
  if (number != 0 || (number = item_refusal(words, item)) != 0) return refuse(answer, number);
  if (old_project >= words[3] || new_project >= words[3]) return refuse(answer, 7);
  return start(words, worker, (struct worker){.phase = 6, .item = item, .old = old_project, .new = new_project}, answer);
}

uint32_t twin_start_take_snapshot(uint32_t *words, size_t count, uint32_t worker, goravesha_answer *answer) {
  uint32_t number = worker_refusal(words, count, worker);
  if (number != 0) return refuse(answer, number);
  return start(words, worker, (struct worker){.phase = 23}, answer);
}

uint32_t twin_start_read_snapshot(uint32_t *words, size_t count, uint32_t worker, uint32_t item, uint32_t handle, goravesha_answer *answer) {
  uint32_t number = worker_refusal(words, count, worker);
  if (number != 0 || (number = item_refusal(words, item)) != 0) return refuse(answer, number);
  if (handle >= words[5]) return refuse(answer, 8);
  if (handle < item_at(words, item)->birth) return refuse(answer, 9);
  return start(words, worker, (struct worker){.phase = 25, .item = item, .handle = handle}, answer);
}

uint32_t twin_start_total(uint32_t *words, size_t count, uint32_t worker, uint32_t project, uint32_t handle, goravesha_answer *answer) {
  uint32_t number = worker_refusal(words, count, worker);
  if (number != 0) return refuse(answer, number);
  if (project >= words[3]) return refuse(answer, 7);
  if (handle >= words[5]) return refuse(answer, 8);
  return start(words, worker, (struct worker){.phase = words[6] == 0 ? 35 : 30, .handle = handle, .project = project, .noted = words[6]}, answer);
}

static inline uint32_t line_34(const struct header *h, struct worker *w, const struct item *item, const struct node *node, int total,
                               goravesha_answer *answer) {
  if (node->stamp > h->counter) return refuse(answer, 2);
  if (node->stamp > w->handle) {
    if (node->older == 0 || node->older > h->used) return refuse(answer, 2);
    w->node = node->older - 1;
    return go_on(answer, w, w->phase);
  }
  if (node->value >= h->projects) return refuse(answer, 2);
  if (!total) return end(answer, w, GORAVESHA_FINISHED, node->value);
  uint64_t sum = sum_of(w) + (node->value == w->project ? item->size : 0);
  w->sum_low = (uint32_t)sum, w->sum_high = (uint32_t)(sum >> 32);
  return next_item(answer, w);
}

static inline uint32_t line_45(struct header *h, struct worker *w, struct node *nodes, goravesha_answer *answer) {
  uint32_t number = next_node(h);
  if (number == h->nodes_limit) return end(answer, w, GORAVESHA_REFUSED + 11, 0);
  struct node *taken = nodes + number;
  if (node_damaged(h, taken)) return refuse(answer, 2);
  take(h, taken);
  *taken = (struct node){w->new, w->node + 1, TBD};
  w->new_node = number;
  return go_on(answer, w, w->phase + 1);
}

/* Gives the worker's new node back; 0 where a word that this uses is damaged, and nothing is written. */
static inline int give_back(struct header *h, const struct worker *w, struct node *nodes) {
  struct node *returned = nodes + w->new_node;
  if (returned->older > h->used || (h->given_back != 0 && node_damaged(h, nodes + h->given_back - 1))) return 0;
  returned->older = h->given_back;
  h->given_back = w->new_node + 1;
  return 1;
}

static inline uint32_t line_50(struct header *h, struct worker *w, struct node *nodes, goravesha_answer *answer) {
  return give_back(h, w, nodes) ? go_on(answer, w, w->phase + 1) : refuse(answer, 2);
}

uint32_t twin_step(uint32_t *words, size_t count, uint32_t worker, goravesha_answer *answer) {
  struct header *h = (struct header *)words;
  if (header_damaged(words, count)) return refuse(answer, 2);
  if (worker >= h->workers) return refuse(answer, 3);
  struct worker *w = worker_at(words, worker);
  if (w->phase > 35) return refuse(answer, 2);
  if (w->phase == 0) return refuse(answer, 5);
  const struct row row = rows[w->phase];
  if (w->steps > 5120 || running_damaged(h, w, row)) return refuse(answer, 2);
  if (row.line == 6 && w->seen >= h->counter_limit) return refuse(answer, 2);
  struct item *item = item_at(words, w->item);
  if (row.operation != TAKE_SNAPSHOT && row.line != 0 && item_damaged(h, item)) return refuse(answer, 2);
  struct node *nodes = nodes_at(words), *node = nodes + w->node;
  uint32_t seen;
  switch (row.line) {
    case 32:
      if (row.operation == TOTAL && w->handle < item->birth) return next_item(answer, w);
      /* fall through */
    case 37: case 41: case 51:
      w->node = item->head;
      return go_on(answer, w, w->phase + 1);
    case 20:
      if (stamp_damaged(h, node->stamp)) return refuse(answer, 2);
      return go_on(answer, w, w->phase + (node->stamp == TBD ? 1 : 3));
    case 21:
      w->seen = h->counter;
      return go_on(answer, w, w->phase + 1);
    case 22:
      if (stamp_damaged(h, node->stamp)) return refuse(answer, 2);
      if (node->stamp == TBD) node->stamp = w->seen;
      return go_on(answer, w, w->phase + 1);
    case 39:
      if (node->value >= h->projects) return refuse(answer, 2);
      return end(answer, w, GORAVESHA_FINISHED, node->value);
    case 43:
      if (node->value >= h->projects) return refuse(answer, 2);
      if (node->value != w->old) return end(answer, w, GORAVESHA_FINISHED, 0);
      return w->new == w->old ? end(answer, w, GORAVESHA_FINISHED, 1) : go_on(answer, w, w->phase + 1);
    case 45: return line_45(h, w, nodes, answer);
    case 46:
      if (item->head != w->node) return go_on(answer, w, 17);
      item->head = w->node = w->new_node;
      return go_on(answer, w, 13);
    case 48: return end(answer, w, GORAVESHA_FINISHED, 1);
    case 50: return line_50(h, w, nodes, answer);
    case 52: return end(answer, w, GORAVESHA_FINISHED, 0);
    case 5:
      if (h->counter >= h->counter_limit) return end(answer, w, GORAVESHA_REFUSED + 12, 0);
      w->seen = h->counter;
      return go_on(answer, w, w->phase + 1);
    case 6:
      seen = w->seen;
      if (h->counter == seen) h->counter = seen + 1;
      return end(answer, w, GORAVESHA_FINISHED, seen);
    case 34: return line_34(h, w, item, node, row.operation == TOTAL, answer);
    default: return end(answer, w, GORAVESHA_FINISHED, sum_of(w));
  }
}

uint32_t twin_abandon(uint32_t *words, size_t count, uint32_t worker, goravesha_answer *answer) {
  struct header *h = (struct header *)words;
  uint32_t number = worker_refusal(words, count, worker);
  if (number != 4) return refuse(answer, number == 0 ? 5 : number); /* as a start, but that the worker is to be busy */
  struct worker *w = worker_at(words, worker);
  if ((rows[w->phase].keeps & NEW_NODE) && !give_back(h, w, nodes_at(words))) return refuse(answer, 2);
  memset(w, 0, sizeof *w);
  return tell(answer, GORAVESHA_ACCEPTED, 0, 0);
}
