/*
 * How much stack each call uses: a stack of our own is painted, a call is made on it, and the paint that is gone is counted. An empty function
 * in the call's place says how much of that is the measuring itself.
 *
 * usage: stack [calls]
 */
#include "tables.h"

#include <inttypes.h>
#include <stdio.h>
#include <stdlib.h>
#include <string.h>
#include <ucontext.h>

enum { STACK_BYTES = 1 << 16 };
static const unsigned char PAINT = 0x5a;

static unsigned char stack[STACK_BYTES] __attribute__((aligned(64)));
static ucontext_t outside, inside;
static struct table table;
static struct call call;
static goravesha_answer answer;

/* The calls, each made with as many arguments as it takes, and nothing done before or after it: its code is handed on. */
static uint32_t make(void) {
  const uint32_t *a = call.argument;
  return goravesha_make(table.words, table.count, a[0], a[1], a[2], a[3], a[4], &answer);
}
static uint32_t registers(void) { return goravesha_register(table.words, table.count, call.argument[0], call.argument[1], &answer); }
static uint32_t vread(void) { return goravesha_start_vread(table.words, table.count, call.argument[0], call.argument[1], &answer); }
static uint32_t vcas(void) {
  const uint32_t *a = call.argument;
  return goravesha_start_vcas(table.words, table.count, a[0], a[1], a[2], a[3], &answer);
}
static uint32_t take_snapshot(void) { return goravesha_start_take_snapshot(table.words, table.count, call.argument[0], &answer); }
static uint32_t read_snapshot(void) {
  const uint32_t *a = call.argument;
  return goravesha_start_read_snapshot(table.words, table.count, a[0], a[1], a[2], &answer);
}
static uint32_t total(void) { return goravesha_start_total(table.words, table.count, call.argument[0], call.argument[1], call.argument[2], &answer); }
static uint32_t step(void) { return goravesha_step(table.words, table.count, call.argument[0], &answer); }
static uint32_t abandon(void) { return goravesha_abandon(table.words, table.count, call.argument[0], &answer); }
static uint32_t nothing(void) { return 0; }

static uint32_t (*const function[KINDS])(void) = {make, registers, vread, vcas, take_snapshot, read_snapshot, total, step, abandon};

/* The bytes of the stack that a function leaves unpainted. What it returns is dropped: a context's function returns nothing. */
static size_t used_by(uint32_t (*made)(void)) {
  memset(stack, PAINT, sizeof stack);
  getcontext(&inside);
  inside.uc_stack.ss_sp = stack;
  inside.uc_stack.ss_size = sizeof stack;
  inside.uc_link = &outside;
  makecontext(&inside, (void (*)(void))made, 0);
  swapcontext(&outside, &inside);
  size_t untouched = 0;
  while (untouched < sizeof stack && stack[untouched] == PAINT) untouched++;
  return sizeof stack - untouched;
}

int main(int arguments, char **argument) {
  uint64_t calls = arguments > 1 ? strtoull(argument[1], NULL, 10) : 200000, made[KINDS] = {0};
  size_t empty = used_by(nothing), most[KINDS] = {0};
  struct draw draws = {1};
  for (uint64_t i = 0; i < calls; i++) {
    if (i % 16 == 0) {
      if (i % 48 == 0) table_of_a_run(&table, &draws, 400);
      else table_in_range(&table, &draws);
    }
    call = draw_call(table.words, table.count, &draws);
    size_t used = (used_by(function[call.kind]) - empty + 15) / 16 * 16;
    if (used > most[call.kind]) most[call.kind] = used;
    made[call.kind]++;
  }
  for (int kind = 0; kind < KINDS; kind++) printf("%-19s at most %4zu bytes of stack, of %" PRIu64 " calls\n", kind_name[kind], most[kind], made[kind]);
  return EXIT_SUCCESS;
}
