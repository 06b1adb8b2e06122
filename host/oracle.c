/*
 * Documents 01 and 02 in C, to be held against them section by section: make and register, the starts, the steps, one function for each line of
 * Algorithm 1, and document 02's abandon. The lent words and what is damaged are in oracle_words.c. A call first tests everything and only then writes, so that a
 * refusal changes no word.
 */
#include "oracle_words.h"

const char *const kind_name[KINDS] = {
    "make", "register", "start of vRead", "start of vCAS", "start of takeSnapshot", "start of readSnapshot", "start of total", "step", "abandon",
};

/* ---- Taking a node: the one most recently given back; if none waits, the lowest never used ---- */

static bool no_node_left(const struct header *header) {
  return header->given_back == 0 && header->used == header->nodes_limit;
}

static struct node *node_to_take(struct catalogue catalogue) {
  const struct header *header = catalogue.header;
  const uint32_t number = header->given_back != 0 ? header->given_back - 1 : header->used;
  return &catalogue.nodes[number];
}

static uint32_t take_node(struct catalogue catalogue, struct node filled) {
  struct node *node = node_to_take(catalogue);
  if (catalogue.header->given_back != 0) {
    catalogue.header->given_back = node->older; /* read before line 45 or register writes it */
  } else {
    catalogue.header->used += 1;
  }
  *node = filled;
  return (uint32_t)(node - catalogue.nodes);
}

/* As line 50 returns it: the node's link is to the one given back before it; its value and stamp stay. */
static void give_node_back(struct catalogue catalogue, uint32_t number) {
  catalogue.nodes[number].older = catalogue.header->given_back;
  catalogue.header->given_back = number + 1;
}

/* ---- Answers ---- */

static struct answer accepted(uint32_t value) {
  return (struct answer){.code = GORAVESHA_ACCEPTED, .value = value, .steps = 0};
}

static struct answer refused(uint32_t number) {
  return (struct answer){.code = GORAVESHA_REFUSED + number, .value = 0, .steps = 0};
}

/* ---- Make and register ---- */

static struct answer make(uint32_t *words, size_t count, const uint32_t *size) {
  if (sizes_outside(size[0], size[1], size[2], size[3], size[4])) return refused(1);
  const size_t needed = needed_words(size[0], size[1], size[2]);
  if (count < needed) return refused(1);
  for (size_t word = 0; word < needed; word += 1) words[word] = word < 5 ? size[word] : 0;
  return accepted(0);
}

/* The item's unused word is not written: no page says that register sets it. */
static struct answer register_item(struct catalogue catalogue, uint32_t value, uint32_t size) {
  struct header *header = catalogue.header;
  if (value >= header->projects) return refused(7);
  if (header->items == header->items_limit) return refused(10);
  if (no_node_left(header)) return refused(11);
  if (first_given_back_damaged(catalogue)) return refused(2);
  const uint32_t number = header->items;
  struct item *item = &catalogue.items[number];
  item->head = take_node(catalogue, (struct node){.value = value, .older = 0, .stamp = header->counter});
  item->birth = header->counter;
  item->size = size;
  header->items += 1;
  return accepted(number);
}

/* ---- Starts ---- */

static uint32_t total_goes_to(uint32_t place, uint32_t noted) {
  return place < noted ? TOTAL_ITEM_BEGINS : TOTAL_CLOSES;
}

/* The record that a start will write: the phase, the operation's arguments, and zero elsewhere. */
static struct worker record_asked_for(const struct call *call, uint32_t items) {
  const uint32_t *argument = call->argument + 1; /* the worker's number comes first */
  switch (call->kind) {
  case START_VREAD: return (struct worker){.phase = VREAD_BEGINS, .item = argument[0]};
  case START_VCAS: return (struct worker){.phase = VCAS_BEGINS, .item = argument[0], .old = argument[1], .new = argument[2]};
  case START_READ_SNAPSHOT: return (struct worker){.phase = READ_SNAPSHOT_BEGINS, .item = argument[0], .handle = argument[1]};
  case START_TOTAL: return (struct worker){.phase = total_goes_to(0, items), .project = argument[0], .handle = argument[1], .noted = items};
  default: return (struct worker){.phase = TAKE_SNAPSHOT_BEGINS};
  }
}

/* Refusals 6 to 9, 0 if none applies. An argument that the operation does not have is 0, which is always a project number. */
static uint32_t refusal_of_arguments(struct catalogue catalogue, const struct worker *asked) {
  const struct header *header = catalogue.header;
  const enum operation operation = phase_rows[asked->phase].operation;
  const bool has_item = operation == VREAD || operation == VCAS || operation == READ_SNAPSHOT;
  const bool has_handle = operation == READ_SNAPSHOT || operation == TOTAL;
  if (has_item && asked->item >= header->items) return 6;
  if (has_item && item_damaged(header, &catalogue.items[asked->item])) return 2;
  if (asked->old >= header->projects || asked->new >= header->projects) return 7;
  if (asked->project >= header->projects) return 7;
  if (has_handle && asked->handle >= header->counter) return 8;
  if (operation == READ_SNAPSHOT && asked->handle < catalogue.items[asked->item].birth) return 9;
  return 0;
}

static struct answer start(struct catalogue catalogue, const struct call *call) {
  const struct header *header = catalogue.header;
  if (call->argument[0] >= header->workers) return refused(3);
  struct worker *worker = &catalogue.workers[call->argument[0]];
  if (worker_damaged(header, worker)) return refused(2);
  if (worker->phase != 0) return refused(4);
  const struct worker asked = record_asked_for(call, header->items);
  const uint32_t refusal = refusal_of_arguments(catalogue, &asked);
  if (refusal != 0) return refused(refusal);
  *worker = asked;
  return accepted(0);
}

/* ---- Steps: one function for each line of Algorithm 1 ---- */

/* A worker inside its operation; `item` is there inside an item only. */
struct running {
  struct catalogue catalogue;
  const struct phase_row *row;
  struct worker *worker;
  struct item *item;
};

static struct node *node_of(const struct running *running) {
  return &running->catalogue.nodes[running->worker->node];
}

static struct answer go_on(struct worker *worker, uint32_t phase) {
  worker->phase = phase;
  worker->steps += 1;
  return (struct answer){.code = GORAVESHA_RUNNING, .value = 0, .steps = worker->steps};
}

static struct answer end(struct worker *worker, uint32_t code, uint64_t value) {
  const uint64_t steps = (uint64_t)worker->steps + 1;
  *worker = (struct worker){.phase = 0}; /* an idle worker's record is all zero */
  return (struct answer){.code = code, .value = value, .steps = steps};
}

static struct answer finish(struct worker *worker, uint64_t value) {
  return end(worker, GORAVESHA_FINISHED, value);
}

static struct answer line_5(struct header *header, struct worker *worker, uint32_t phase) {
  if (header->counter == header->counter_limit) return end(worker, GORAVESHA_REFUSED + 12, 0);
  worker->seen = header->counter;
  return go_on(worker, phase);
}

/* One attempt; the number read is the answer whether or not it succeeded. */
static struct answer line_6(struct header *header, struct worker *worker) {
  if (header->counter == worker->seen) header->counter = worker->seen + 1;
  return finish(worker, worker->seen);
}

static struct answer line_20(const struct running *running) {
  const bool to_be_decided = node_of(running)->stamp == TBD;
  return go_on(running->worker, to_be_decided ? running->row->goes_on : running->row->otherwise);
}

static struct answer line_21(const struct running *running) {
  running->worker->seen = running->catalogue.header->counter;
  return go_on(running->worker, running->row->goes_on);
}

static struct answer line_22(const struct running *running) {
  struct node *node = node_of(running);
  if (node->stamp == TBD) node->stamp = running->worker->seen; /* a valid stamp never changes */
  return go_on(running->worker, running->row->goes_on);
}

static struct answer next_item(struct worker *worker) {
  worker->item += 1;
  return go_on(worker, total_goes_to(worker->item, worker->noted));
}

/* Lines 32, 37, 41 and 51 fetch the head. A total passes over an item born after its handle. */
static struct answer fetch_head(const struct running *running) {
  struct worker *worker = running->worker;
  if (running->row->operation == TOTAL && running->item->birth > worker->handle) return next_item(worker);
  worker->node = running->item->head;
  return go_on(worker, running->row->goes_on);
}

/* One test: above the handle it moves to the older node, else it ends the reading of this item in the same step. */
static struct answer line_34(const struct running *running) {
  struct worker *worker = running->worker;
  const struct node *node = node_of(running);
  if (node->stamp > worker->handle) {
    worker->node = node->older - 1;
    return go_on(worker, running->row->goes_on);
  }
  if (running->row->operation == READ_SNAPSHOT) return finish(worker, node->value);
  if (node->value == worker->project) {
    const uint64_t low = (uint64_t)worker->sum_low + running->item->size;
    worker->sum_low = (uint32_t)low;
    worker->sum_high += (uint32_t)(low >> 32);
  }
  return next_item(worker);
}

/* Lines 43 and 44 together. */
static struct answer line_43(const struct running *running) {
  struct worker *worker = running->worker;
  if (node_of(running)->value != worker->old) return finish(worker, 0);
  if (worker->new == worker->old) return finish(worker, 1);
  return go_on(worker, running->row->goes_on);
}

/* The new node is still to be decided: line 46 publishes it before any stamp. */
static struct answer line_45(const struct running *running) {
  struct worker *worker = running->worker;
  if (no_node_left(running->catalogue.header)) return end(worker, GORAVESHA_REFUSED + 11, 0);
  worker->new_node = take_node(running->catalogue, (struct node){.value = worker->new, .older = worker->node + 1, .stamp = TBD});
  return go_on(worker, running->row->goes_on);
}

static struct answer line_46(const struct running *running) {
  struct worker *worker = running->worker;
  if (running->item->head != worker->node) return go_on(worker, running->row->otherwise);
  running->item->head = worker->new_node;
  worker->node = worker->new_node; /* H follows, on the new node */
  return go_on(worker, running->row->goes_on);
}

static struct answer line_50(const struct running *running) {
  give_node_back(running->catalogue, running->worker->new_node);
  return go_on(running->worker, running->row->goes_on);
}

static struct answer run_line(const struct running *running) {
  struct header *header = running->catalogue.header;
  struct worker *worker = running->worker;
  switch (running->row->line) {
  case 5: return line_5(header, worker, running->row->goes_on);
  case 6: return line_6(header, worker);
  case 20: return line_20(running);
  case 21: return line_21(running);
  case 22: return line_22(running);
  case 34: return line_34(running);
  case 39: return finish(worker, node_of(running)->value);
  case 43: return line_43(running);
  case 45: return line_45(running);
  case 46: return line_46(running);
  case 48: return finish(worker, 1);
  case 50: return line_50(running);
  case 52: return finish(worker, 0);
  case 0: return finish(worker, running_sum(worker)); /* a total's closing step */
  default: return fetch_head(running); /* 32, 37, 41, 51 */
  }
}

/* The node words that the step's line reads or writes (line 45 the node it takes, also one never used), and at 45 and 50 the first node given back. */
static bool node_words_damaged(const struct running *running) {
  const struct header *header = running->catalogue.header;
  const struct worker *worker = running->worker;
  switch (running->row->node_words) {
  case ITS_STAMP: return stamp_damaged(header, node_of(running));
  case ITS_VALUE: return value_damaged(header, node_of(running));
  case NODE_TAKEN: return !no_node_left(header) && node_damaged(header, node_to_take(running->catalogue));
  case NODES_GIVEN: return nodes_given_damaged(running->catalogue, worker->new_node);
  case NODE_TESTED: return tested_node_damaged(header, node_of(running), worker->handle);
  default: return false;
  }
}

static struct answer step(struct catalogue catalogue, uint32_t number) {
  const struct header *header = catalogue.header;
  if (number >= header->workers) return refused(3); /* before any record is looked at */
  struct worker *worker = &catalogue.workers[number];
  if (worker_damaged(header, worker) || before_a_step_damaged(header, worker)) return refused(2); /* right after 3 */
  const struct phase_row *row = &phase_rows[worker->phase];
  if (row->operation == IDLE) return refused(5);
  struct item *item = inside_an_item(row) ? &catalogue.items[worker->item] : NULL;
  if (item != NULL && item_damaged(header, item)) return refused(2);
  const struct running running = {catalogue, row, worker, item};
  if (node_words_damaged(&running)) return refused(2); /* a node's damage comes last */
  return run_line(&running);
}

/* ---- Abandon: document 02, request 1 ---- */

/* A node taken at 45 is not published before 46 has run, and after a 46 that failed it waits for 50. */
static bool holds_a_node(const struct phase_row *row) {
  return row->line == 46 || row->line == 50;
}

/* Not a step: the worker's words are tested as at a start, and its item's record is not used. */
static struct answer abandon(struct catalogue catalogue, uint32_t number) {
  const struct header *header = catalogue.header;
  if (number >= header->workers) return refused(3); /* as at a step */
  struct worker *worker = &catalogue.workers[number];
  if (worker_damaged(header, worker)) return refused(2); /* as at a start, right after 3 */
  if (worker->phase == 0) return refused(5);
  const bool held = holds_a_node(&phase_rows[worker->phase]);
  if (held && nodes_given_damaged(catalogue, worker->new_node)) return refused(2);
  if (held) give_node_back(catalogue, worker->new_node);
  *worker = (struct worker){.phase = 0}; /* idle at once; what it published stays */
  return accepted(0);
}

/* ---- The calls ---- */

struct answer oracle_call(const struct call *call, uint32_t *words, size_t count) {
  if (call->kind == MAKE) return make(words, count, call->argument);
  if (header_damaged(words, count)) return refused(2); /* before everything else */
  const struct catalogue catalogue = parts_of(words);
  if (call->kind == REGISTER) return register_item(catalogue, call->argument[0], call->argument[1]);
  if (call->kind == STEP) return step(catalogue, call->argument[0]);
  if (call->kind == ABANDON) return abandon(catalogue, call->argument[0]);
  return start(catalogue, call);
}
