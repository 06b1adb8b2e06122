/* Tables of words and calls for the tests: see tables.h. Words are numbered as docs/FIELDS.md does. */
#include "tables.h"

#include <string.h>

static const uint32_t TBD = UINT32_MAX;

/* One of the header's nine words; 1 where there are too few. */
static uint32_t header_word(const uint32_t *words, size_t count, unsigned which) { return which < count ? words[which] : 1; }

/* A number with a taste for limits: those of document 01, those of the header, and one to either side. */
static uint32_t extreme(const uint32_t *words, size_t count, struct draw *draw) {
  static const uint32_t limit[] = {0, 1, 16, 35, 64, 256, 4096, 5120, 1u << 20, 1u << 26, 1u << 28, 1u << 30, 1u << 31, UINT32_MAX};
  uint32_t side = draw_below(draw, 3) - 1;
  switch (draw_below(draw, 4)) {
    case 0: return limit[draw_below(draw, sizeof limit / sizeof *limit)] + side;
    case 1: return header_word(words, count, draw_below(draw, 9)) + side;
    case 2: return draw_below(draw, 40);
    default: return draw_word(draw);
  }
}

static void draw_sizes(struct draw *draw, uint32_t large_once_in, uint32_t *size) {
  static const uint32_t most[5] = {64, 256, 4096, 256, UINT32_MAX - 1};
  static const uint32_t small[5] = {4, 6, 12, 5, 9};
  int large = draw_once_in(draw, large_once_in);
  for (int which = 0; which < 5; which++) size[which] = large ? most[which] : 1 + draw_below(draw, small[which]);
  if (draw_once_in(draw, 4)) size[4] = most[4] - draw_below(draw, 2);
}

/* As many words as are needed, or some more: now and then up to a whole number of pages. */
static size_t draw_count(struct draw *draw, const uint32_t *size) {
  size_t needed = GORAVESHA_WORDS(size[0], size[1], size[2]);
  switch (draw_below(draw, 8)) {
    case 0: return needed + draw_below(draw, 1024);
    case 1: return (needed + 1023) / 1024 * 1024;
    default: return needed;
  }
}

void table_of_a_run(struct table *table, struct draw *draw, uint32_t large_once_in) {
  struct call call = {MAKE, {0}};
  draw_sizes(draw, large_once_in, call.argument);
  table->count = draw_count(draw, call.argument);
  for (size_t i = 0; i < table->count; i++) table->words[i] = draw_word(draw);
  oracle_call(&call, table->words, table->count);
  uint32_t calls = draw_below(draw, draw_once_in(draw, 8) ? 20 * call.argument[2] + 8 * call.argument[1] : 60);
  while (calls-- > 0) {
    call = draw_call(table->words, table->count, draw);
    if (call.kind != MAKE) oracle_call(&call, table->words, table->count);
  }
}

/* A number below a limit, or 0 where the limit is 0. */
static uint32_t within(struct draw *draw, uint32_t limit) { return limit == 0 ? 0 : draw_below(draw, limit); }

static void worker_in_range(uint32_t *worker, const uint32_t *header, struct draw *draw) {
  uint32_t items = header[6], used = header[7], counter = header[5], noted = draw_below(draw, items + 1);
  worker[0] = draw_once_in(draw, 4) ? 0 : draw_below(draw, PHASES);
  worker[1] = draw_once_in(draw, 4) ? 5119 + draw_below(draw, 3) : draw_below(draw, 20);
  worker[2] = within(draw, items);
  worker[3] = within(draw, header[3]);
  worker[4] = within(draw, header[3]);
  worker[5] = within(draw, counter);
  worker[6] = within(draw, header[3]);
  worker[7] = noted;
  worker[8] = within(draw, used);
  worker[9] = within(draw, used);
  worker[10] = draw_below(draw, counter + 1);
  worker[11] = draw_once_in(draw, 4) ? UINT32_MAX - draw_below(draw, 2) : draw_word(draw);
  worker[12] = draw_below(draw, 257);
  if (worker[0] >= 30) worker[2] = worker[0] == 35 ? draw_below(draw, noted + 1) : within(draw, noted);
  if (worker[0] == 24) worker[10] = draw_once_in(draw, 6) ? header[4] : within(draw, header[4]);
}

void table_in_range(struct table *table, struct draw *draw) {
  uint32_t *words = table->words;
  memset(words, 0, 16 * sizeof *words);
  draw_sizes(draw, 2000, words);
  table->count = draw_count(draw, words);
  memset(words + 16, 0, (table->count - 16) * sizeof *words);
  uint32_t counter_most = words[4] < 12 || draw_once_in(draw, 4) ? words[4] : 12;
  words[5] = draw_once_in(draw, 4) ? counter_most : draw_below(draw, counter_most);
  words[6] = draw_once_in(draw, 4) ? words[1] : draw_below(draw, words[1] + 1);
  words[7] = draw_once_in(draw, 2) ? words[2] : draw_below(draw, words[2] + 1);
  words[8] = draw_once_in(draw, 2) ? 0 : draw_below(draw, words[7] + 1);
  uint32_t *record = words + 16;
  for (uint32_t w = 0; w < words[0]; w++, record += 16) worker_in_range(record, words, draw);
  for (uint32_t i = 0; i < words[1]; i++, record += 4) {
    record[0] = within(draw, words[7]);
    record[1] = draw_once_in(draw, 10) ? TBD : draw_below(draw, words[5] + 1);
    record[2] = draw_once_in(draw, 2) ? draw_word(draw) : UINT32_MAX;
  }
  for (uint32_t n = 0; n < words[2]; n++, record += 3) {
    record[0] = within(draw, words[3]);
    record[1] = draw_below(draw, words[7] + 1);
    record[2] = draw_once_in(draw, 5) ? TBD : draw_below(draw, words[5] + 1);
    if (n >= words[7] && draw_once_in(draw, 6)) record[draw_below(draw, 3)] = draw_word(draw);
  }
}

void table_at_random(struct table *table, struct draw *draw) {
  table->count = draw_once_in(draw, 2) ? draw_below(draw, 40) : draw_below(draw, 700);
  for (size_t i = 0; i < table->count; i++) table->words[i] = extreme(table->words, i, draw);
}

void damage(struct table *table, struct draw *draw, unsigned words) {
  if (draw_once_in(draw, 16)) table->count -= draw_below(draw, table->count < 8 ? (uint32_t)table->count + 1 : 8);
  for (; words > 0 && table->count > 0; words--) {
    uint32_t count = (uint32_t)table->count;
    uint32_t *word = &table->words[draw_once_in(draw, 2) ? draw_below(draw, count) : draw_below(draw, count < 80 ? count : 80)];
    *word = draw_once_in(draw, 4) ? *word + draw_below(draw, 3) - 1 : extreme(table->words, table->count, draw);
  }
}

struct call draw_call(const uint32_t *words, size_t count, struct draw *draw) {
  static const enum kind often[16] = {STEP, STEP, STEP, STEP, STEP, STEP, STEP, STEP, STEP, START_VREAD, START_VCAS, START_VCAS,
                                      START_TAKE_SNAPSHOT, START_READ_SNAPSHOT, START_TOTAL, REGISTER};
  struct call call = {often[draw_below(draw, 16)], {0}};
  uint32_t header[9], *a = call.argument;
  for (unsigned which = 0; which < 9; which++) header[which] = header_word(words, count, which);
  if (draw_once_in(draw, 40)) call.kind = ABANDON;
  if (draw_once_in(draw, 64)) call.kind = MAKE;
  if (call.kind == MAKE) draw_sizes(draw, 2000, a);
  else if (call.kind == REGISTER) a[0] = within(draw, header[3]), a[1] = draw_once_in(draw, 2) ? UINT32_MAX : draw_word(draw);
  else a[0] = within(draw, header[0]);
  if (call.kind == START_VREAD || call.kind == START_VCAS || call.kind == START_READ_SNAPSHOT) a[1] = within(draw, header[6]);
  if (call.kind == START_VCAS) a[2] = within(draw, header[3]), a[3] = within(draw, header[3]);
  if (call.kind == START_TOTAL) a[1] = within(draw, header[3]);
  if (call.kind == START_READ_SNAPSHOT || call.kind == START_TOTAL) a[2] = within(draw, header[5]);
  if (draw_once_in(draw, 16)) a[draw_below(draw, 5)] = extreme(words, count, draw);
  return call;
}
