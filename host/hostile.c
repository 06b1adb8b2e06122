/*
 * The hostile test. The lent words stand between guard pages, so that a read or write outside them is a fault, and words around them that the
 * guard pages cannot reach are compared too. Tables are sound, of a real run, damaged in one word or several, or drawn at random; arguments
 * fit or are extreme. After each call its answer and every word are compared with the oracle's.
 *
 * usage: hostile [-s seconds] [-n calls] [-x seed]
 */
#include "tables.h"

#include <inttypes.h>
#include <signal.h>
#include <stdio.h>
#include <stdlib.h>
#include <string.h>
#include <sys/mman.h>
#include <time.h>
#include <unistd.h>

enum { PAGE = 4096, PAGE_WORDS = PAGE / 4, ROOM_PAGES = 18, ROOM_WORDS = ROOM_PAGES * PAGE_WORDS, CODES = 32, AROUND = 64 };
static const uint32_t UNLENT = 0xc0ffee11u;

enum origin { OF_A_RUN, OF_A_RUN_ONE, OF_A_RUN_SEVERAL, IN_RANGE, IN_RANGE_ONE, IN_RANGE_SEVERAL, AT_RANDOM, ORIGINS };
static const char *const origin_name[ORIGINS] = {"of a run", "of a run, one word damaged", "of a run, several damaged", "in range", "in range, one word damaged",
                                                 "in range, several damaged", "at random"};

static uint32_t *room;           /* ROOM_WORDS words with a guard page on either side */
static goravesha_answer *answer; /* its last byte is the last before a guard page */
static struct table run, expected;
static struct draw draws;
static uint64_t made, by_code[KINDS][CODES], by_phase[PHASES][CODES], abandoned_at[PHASES][CODES], by_origin[ORIGINS];
static unsigned char flush_at[PAGE_WORDS], gap_at[PAGE_WORDS];
static unsigned wrong;
static struct {
  struct call call;
  enum origin origin;
  uint64_t seed;
} present;

static void *guarded(size_t pages) {
  char *all = mmap(NULL, (pages + 2) * PAGE, PROT_NONE, MAP_PRIVATE | MAP_ANONYMOUS, -1, 0);
  if (all == MAP_FAILED || mprotect(all + PAGE, pages * PAGE, PROT_READ | PROT_WRITE) != 0) {
    perror("hostile: memory");
    exit(EXIT_FAILURE);
  }
  return all + PAGE;
}

static void print_call(void) {
  const uint32_t *a = present.call.argument;
  fprintf(stderr, "hostile: table %s, seed %" PRIu64 ": %s %" PRIu32 " %" PRIu32 " %" PRIu32 " %" PRIu32 " %" PRIu32 "\n", origin_name[present.origin],
          present.seed, kind_name[present.call.kind], a[0], a[1], a[2], a[3], a[4]);
}

static void fault(int signal) {
  print_call();
  fprintf(stderr, "hostile: signal %d: it reads or writes outside what was lent\n", signal);
  _exit(EXIT_FAILURE);
}

static void catch_faults(void) {
  static char stack[1 << 16];
  stack_t other = {.ss_sp = stack, .ss_size = sizeof stack};
  struct sigaction action = {.sa_handler = fault, .sa_flags = SA_ONSTACK};
  sigaltstack(&other, NULL);
  sigaction(SIGSEGV, &action, NULL);
  sigaction(SIGBUS, &action, NULL);
}

/* Where the words stand: mostly up against the guard page behind them, else against the one before them, else at any distance from the end. */
static uint32_t *placed(size_t count) {
  uint32_t gap = draw_below(&draws, PAGE_WORDS);
  switch (draw_below(&draws, 8)) {
    case 0: return room;
    case 1: gap_at[gap] = 1; return room + ROOM_WORDS - count - gap;
    default: flush_at[count % PAGE_WORDS] = 1; return room + ROOM_WORDS - count;
  }
}

static void differ(const uint32_t *words, uint32_t code, struct answer told) {
  print_call();
  fprintf(stderr, "  the archive: code %" PRIu32 " numbers %" PRIu64 " %" PRIu64 " %" PRIu64 " %" PRIu64 "\n", code, answer->value, answer->steps, answer->stamped,
          answer->operator_number);
  fprintf(stderr, "  the oracle:  code %" PRIu32 " numbers %" PRIu64 " %" PRIu64 " 0 0\n", told.code, told.value, told.steps);
  for (size_t i = 0; i < expected.count; i++)
    if (words[i] != expected.words[i])
      fprintf(stderr, "  word %zu of %zu: the archive %" PRIu32 ", the oracle %" PRIu32 "\n", i, expected.count, words[i], expected.words[i]);
  if (++wrong == 10) exit(EXIT_FAILURE);
}

/* One call on both, compared. */
static void compare(uint32_t *words) {
  const struct call *call = &present.call;
  uint32_t phase = PHASES;
  if ((call->kind == STEP || call->kind == ABANDON) && expected.count >= 32 && call->argument[0] < 64 && 16 + 16 * (size_t)call->argument[0] < expected.count)
    phase = expected.words[16 + 16 * call->argument[0]];
  memset(answer, 0xaa, sizeof *answer);
  uint32_t code = archive_call(call, words, expected.count, answer);
  struct answer told = oracle_call(call, expected.words, expected.count);
  int same = code == told.code && answer->value == told.value && answer->steps == told.steps && answer->stamped == 0 && answer->operator_number == 0;
  if (!same || memcmp(words, expected.words, expected.count * sizeof *words) != 0) differ(words, code, told);
  made++;
  by_origin[present.origin]++;
  by_code[call->kind][told.code % CODES]++;
  if (phase < PHASES) (call->kind == STEP ? by_phase : abandoned_at)[phase][told.code % CODES]++;
}

/* The unlent words on either side, as far as they are looked at. */
static void around(uint32_t *words, size_t count, int write) {
  size_t before = (size_t)(words - room), after = ROOM_WORDS - before - count;
  if (before > AROUND) before = AROUND;
  if (after > AROUND) after = AROUND;
  for (size_t i = 0; i < before + after; i++) {
    uint32_t *word = i < before ? words - 1 - i : words + count + (i - before);
    if (write) *word = UNLENT;
    else if (*word != UNLENT) {
      print_call();
      fprintf(stderr, "hostile: a word that was not lent was written, %td from the first\n", word - words);
      exit(EXIT_FAILURE);
    }
  }
}

static void draw_table(enum origin origin) {
  if (origin <= OF_A_RUN_SEVERAL) {
    if (run.count == 0 || draw_once_in(&draws, 200)) table_of_a_run(&run, &draws, 400);
    expected.count = run.count;
    memcpy(expected.words, run.words, run.count * sizeof *run.words);
  } else if (origin <= IN_RANGE_SEVERAL) {
    table_in_range(&expected, &draws);
  } else {
    table_at_random(&expected, &draws);
  }
  if (origin == OF_A_RUN_ONE || origin == IN_RANGE_ONE) damage(&expected, &draws, 1);
  if (origin == OF_A_RUN_SEVERAL || origin == IN_RANGE_SEVERAL) damage(&expected, &draws, 2 + draw_below(&draws, 6));
}

/* One table and a number of calls on it. What a sound run comes to is where the next one goes on. */
static void round_of_calls(void) {
  static const enum origin often[16] = {OF_A_RUN, OF_A_RUN, OF_A_RUN, OF_A_RUN, OF_A_RUN_ONE, OF_A_RUN_ONE, OF_A_RUN_SEVERAL, IN_RANGE, IN_RANGE,
                                        IN_RANGE, IN_RANGE, IN_RANGE_ONE, IN_RANGE_ONE, IN_RANGE_SEVERAL, AT_RANDOM, IN_RANGE};
  present.seed = draws.state;
  present.origin = often[draw_below(&draws, 16)];
  draw_table(present.origin);
  uint32_t *words = placed(expected.count);
  around(words, expected.count, 1);
  memcpy(words, expected.words, expected.count * sizeof *words);
  uint32_t calls = present.origin == AT_RANDOM ? 8 : 16 + draw_below(&draws, 64);
  while (calls-- > 0) {
    present.call = draw_call(expected.words, expected.count, &draws);
    if (present.origin == OF_A_RUN && present.call.kind == MAKE && !draw_once_in(&draws, 16)) continue;
    compare(words);
  }
  around(words, expected.count, 0);
  if (present.origin == OF_A_RUN) memcpy(run.words, expected.words, expected.count * sizeof *run.words);
}

static const char *code_name(unsigned code, char *name) {
  if (code >= GORAVESHA_REFUSED) sprintf(name, "refused %u", code - GORAVESHA_REFUSED);
  else sprintf(name, "%s", code == GORAVESHA_FINISHED ? "finished" : code == GORAVESHA_RUNNING ? "running" : "accepted");
  return name;
}

/* What was met; and everything that documents 01 and 02 let a call answer must have been. */
static void report(void) {
  static const uint32_t may[KINDS] = {1u << 2 | 1u << 17, 1u << 2 | 1u << 18 | 1u << 23 | 1u << 26 | 1u << 27, 1u << 2 | 1u << 18 | 1u << 19 | 1u << 20 | 1u << 22,
                                      1u << 2 | 1u << 18 | 1u << 19 | 1u << 20 | 1u << 22 | 1u << 23, 1u << 2 | 1u << 18 | 1u << 19 | 1u << 20,
                                      1u << 2 | 1u << 18 | 1u << 19 | 1u << 20 | 1u << 22 | 1u << 24 | 1u << 25,
                                      1u << 2 | 1u << 18 | 1u << 19 | 1u << 20 | 1u << 23 | 1u << 24,
                                      1u << 0 | 1u << 1 | 1u << 18 | 1u << 19 | 1u << 21 | 1u << 27 | 1u << 28, 1u << 2 | 1u << 18 | 1u << 19 | 1u << 21};
  char name[32];
  for (int kind = 0; kind < KINDS; kind++) {
    printf("%-19s", kind_name[kind]);
    for (unsigned code = 0; code < CODES; code++) {
      if (by_code[kind][code] > 0) printf("  %s %" PRIu64, code_name(code, name), by_code[kind][code]);
      if ((by_code[kind][code] > 0) != (may[kind] >> code & 1)) wrong++, printf("  %s %s!", code_name(code, name), by_code[kind][code] ? "unknown" : "not met");
    }
    printf("\n");
  }
  for (int phase = 1; phase < PHASES; phase++) {
    const struct phase_row *row = &phase_rows[phase];
    uint64_t *met = by_phase[phase];
    printf("step at phase %2d, line %2d:  running %" PRIu64 "  finished %" PRIu64 "  damaged %" PRIu64 "\n", phase, row->line, met[1], met[0], met[18]);
    if (met[18] == 0 || met[0] + met[1] == 0 || (met[0] > 0) != row->may_answer) wrong++, printf("  not as the table of phases says!\n");
  }
  for (int phase = 1; phase < PHASES; phase++) {
    uint64_t *met = abandoned_at[phase];
    printf("abandon at phase %2d, line %2d:  accepted %" PRIu64 "  damaged %" PRIu64 "\n", phase, phase_rows[phase].line, met[2], met[18]);
    if (met[2] == 0 || met[18] == 0) wrong++, printf("  not met!\n");
  }
  for (int origin = 0; origin < ORIGINS; origin++) printf("tables %s: %" PRIu64 " calls\n", origin_name[origin], by_origin[origin]);
  unsigned flush = 0, gaps = 0;
  for (unsigned i = 0; i < PAGE_WORDS; i++) flush += flush_at[i], gaps += gap_at[i];
  printf("lengths modulo a page, up against the guard page behind: %u of %d; distances from it: %u of %d\n", flush, PAGE_WORDS, gaps, PAGE_WORDS);
}

static double seconds_now(void) {
  struct timespec now;
  clock_gettime(CLOCK_MONOTONIC, &now);
  return (double)now.tv_sec + 1e-9 * (double)now.tv_nsec;
}

int main(int arguments, char **argument) {
  double seconds = 30, start = seconds_now();
  uint64_t calls = UINT64_MAX, seed = 1;
  for (int option; (option = getopt(arguments, argument, "s:n:x:")) != -1;) {
    if (option == 's') seconds = atof(optarg);
    else if (option == 'n') calls = strtoull(optarg, NULL, 10), seconds = 1e9;
    else if (option == 'x') seed = strtoull(optarg, NULL, 10);
    else return EXIT_FAILURE;
  }
  room = guarded(ROOM_PAGES);
  answer = (goravesha_answer *)((char *)guarded(1) + PAGE - sizeof *answer);
  catch_faults();
  draws.state = seed * 0x2545f4914f6cdd1du;
  for (uint64_t rounds = 0; made < calls; rounds++) {
    if (rounds % 1024 == 0 && seconds_now() - start > seconds) break;
    round_of_calls();
  }
  report();
  printf("hostile: %" PRIu64 " calls in %.1f s, %u wrong\n", made, seconds_now() - start, wrong);
  return wrong == 0 ? EXIT_SUCCESS : EXIT_FAILURE;
}
