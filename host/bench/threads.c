/*
 * The job a room has, by real threads: some relink without a pause, each its own items, while one reports the sizes of all projects at a snapshot, one
 * report after the other. The catalogue stands under one mutex; LMDB and SQLite (WAL) have their own locks. Every report must be of one moment between its
 * start and its end, and after a round every relink must show. A round is as many relinks on each side; the sides take turns.
 *
 * usage: threads RELINKERS ROUNDS PAUSE [FOLDER [durable]]
 *   RELINKERS (1, 2 or 4) threads relink; the reporter pauses PAUSE microseconds between reports. The databases are made in FOLDER; without it only the
 *   catalogue runs. 'durable' leaves synchronising on, else it is off.
 */
#define _GNU_SOURCE
#include "databases.h"
#include "goravesha.h"
#include "room.h"

#include <pthread.h>
#include <stdatomic.h>
#include <string.h>
#include <unistd.h>

enum { MOST_ROUNDS = 1000, CATALOGUES = 4, STORES = 7 };
static uint32_t relinkers, passes_a_round, pause_between_reports;
static pthread_mutex_t lock = PTHREAD_MUTEX_INITIALIZER;

/*
 * Thread r has the items r, r + relinkers, .. and moves them among projects of its own; its n-th relink moves its items in this order, pass after pass.
 * So how many relinks it has made says what its projects hold, and a report's part can be compared with that.
 */
static uint32_t projects_each(void) { return PROJECTS / relinkers; }
static uint32_t items_each(void) { return ITEMS / relinkers; }
static uint32_t project_of(uint32_t thread, uint32_t place, uint32_t passes) { return thread * projects_each() + (place + passes) % projects_each(); }
static uint32_t item_of(uint32_t thread, uint32_t place) { return thread + place * relinkers; }

/* Reports in microseconds: of one round, or of all. */
struct times {
  double *of;
  size_t count, room;
};

static void add_time(struct times *times, double time) {
  if (times->count == times->room) {
    times->room = times->room ? 2 * times->room : 1024;
    times->of = realloc(times->of, times->room * sizeof *times->of);
    check(times->of != NULL, "memory");
  }
  times->of[times->count++] = time;
}

/* What keeps the items, and what was measured of it. */
struct store {
  const char *name;
  void (*relink)(uint32_t thread, uint32_t item, uint32_t from, uint32_t to);
  void (*report)(uint64_t *sums);
  uint32_t calls_a_lock; /* the catalogue: how many calls a thread makes before it lets the lock go */
  uint32_t *passes;      /* of all items, before this round: both ways to use SQLite have the same items */
  struct times reports;
  double relinking[MOST_ROUNDS], middle_report[MOST_ROUNDS]; /* of each round: the time of all relinks, and the median report */
};
static struct store *store; /* whose round it is */

/*
 * The catalogue, as a service must keep it. It has nodes for LIFE relinks. Then a relink waits until those under way have ended, and makes a fresh one
 * from where the items are. A report under way goes on in the one that it began with; so there are three: the present, the reported, and the next.
 * All of it is used under the lock. Worker r is the thread r, and the last is the reporter.
 */
enum { WORKERS = 64, NODES = 4096, LIFE = NODES - ITEMS, REPORTER = WORKERS - 1, LENT = GORAVESHA_WORDS(WORKERS, ITEMS, NODES) };
static uint32_t words[3][LENT], *present, *reported;
static uint32_t linked[ITEMS], relinks_left, relinks_under_way;
static pthread_cond_t relinks_ended = PTHREAD_COND_INITIALIZER;
static struct times makings;

static void make_fresh(void) {
  goravesha_answer answer;
  uint32_t fresh = 0;
  double from = microseconds();
  while (words[fresh] == present || words[fresh] == reported) fresh++;
  present = words[fresh];
  check(goravesha_make(present, LENT, WORKERS, ITEMS, NODES, PROJECTS, UINT32_MAX - 1, &answer) == GORAVESHA_ACCEPTED, "make");
  for (uint32_t i = 0; i < ITEMS; i++) check(goravesha_register(present, LENT, linked[i], size_of(i), &answer) == GORAVESHA_ACCEPTED, "register");
  relinks_left = LIFE;
  add_time(&makings, microseconds() - from);
}

/* Before each call but the first of a relink or report: after so many calls the lock is let go and taken again. */
static void next_call(uint32_t *calls) {
  if (++*calls % store->calls_a_lock != 0) return;
  pthread_mutex_unlock(&lock);
  pthread_mutex_lock(&lock);
}

/* The rest of an operation that was started with the code `started`: its value. */
static uint64_t run_out(uint32_t started, uint32_t *catalogue, uint32_t worker, uint32_t *calls) {
  goravesha_answer answer;
  uint32_t code;
  check(started == GORAVESHA_ACCEPTED, "a start was refused");
  do {
    next_call(calls);
    code = goravesha_step(catalogue, LENT, worker, &answer);
  } while (code == GORAVESHA_RUNNING);
  check(code == GORAVESHA_FINISHED, "a step was refused");
  return answer.value;
}

static void catalogue_relink(uint32_t thread, uint32_t item, uint32_t from, uint32_t to) {
  goravesha_answer answer;
  uint32_t calls = 0;
  pthread_mutex_lock(&lock);
  while (relinks_left == 0) {
    if (relinks_under_way == 0) make_fresh();
    else pthread_cond_wait(&relinks_ended, &lock);
  }
  relinks_left--;
  relinks_under_way++;
  check(run_out(goravesha_start_vcas(present, LENT, thread, item, from, to, &answer), present, thread, &calls) == 1, "a relink was lost");
  linked[item] = to;
  relinks_under_way--;
  if (relinks_left == 0 && relinks_under_way == 0) pthread_cond_broadcast(&relinks_ended);
  pthread_mutex_unlock(&lock);
}

/* A handle of the present catalogue, which is from here on the reported one. */
static uint32_t taken_snapshot(uint32_t *calls) {
  goravesha_answer answer;
  reported = present;
  return (uint32_t)run_out(goravesha_start_take_snapshot(reported, LENT, REPORTER, &answer), reported, REPORTER, calls);
}

/* A total of each project. */
static void report_by_totals(uint64_t *sums) {
  goravesha_answer answer;
  uint32_t calls = 0;
  pthread_mutex_lock(&lock);
  uint32_t handle = taken_snapshot(&calls);
  for (uint32_t project = 0; project < PROJECTS; project++) {
    next_call(&calls);
    sums[project] = run_out(goravesha_start_total(reported, LENT, REPORTER, project, handle, &answer), reported, REPORTER, &calls);
  }
  pthread_mutex_unlock(&lock);
}

/* A readSnapshot of each item, added up by the sizes that the host knows: a sixth of the calls. */
static void report_by_items(uint64_t *sums) {
  goravesha_answer answer;
  uint32_t calls = 0;
  pthread_mutex_lock(&lock);
  uint32_t handle = taken_snapshot(&calls);
  for (uint32_t item = 0; item < ITEMS; item++) {
    next_call(&calls);
    uint64_t project = run_out(goravesha_start_read_snapshot(reported, LENT, REPORTER, item, handle, &answer), reported, REPORTER, &calls);
    sums[project] += size_of(item);
  }
  pthread_mutex_unlock(&lock);
}

/* The databases: a connection of SQLite for each thread, the last for the reporter. */

static struct connection connections[WORKERS];

static void lmdb_thread_relink(uint32_t thread, uint32_t item, uint32_t from, uint32_t to) {
  (void)thread;
  lmdb_relink(item, from, to);
}
static void lmdb_whole_report(uint64_t *sums) { lmdb_report(sums, NULL); }

static void sqlite_thread_relink(uint32_t thread, uint32_t item, uint32_t from, uint32_t to) { sqlite_relink(&connections[thread], item, from, to); }
static void sqlite_locked_relink(uint32_t thread, uint32_t item, uint32_t from, uint32_t to) {
  pthread_mutex_lock(&lock);
  sqlite_relink(&connections[thread], item, from, to);
  pthread_mutex_unlock(&lock);
}
static void sqlite_whole_report(uint64_t *sums) { sqlite_report(&connections[REPORTER], sums, NULL); }

static uint32_t catalogue_passes, lmdb_passes, sqlite_passes;
static struct store stores[STORES] = {
  {.name = "Goravesha, the lock for a call", .relink = catalogue_relink, .report = report_by_totals, .passes = &catalogue_passes, .calls_a_lock = 1},
  {.name = "Goravesha, the lock for 16 calls", .relink = catalogue_relink, .report = report_by_totals, .passes = &catalogue_passes, .calls_a_lock = 16},
  {.name = "the same, reported item by item", .relink = catalogue_relink, .report = report_by_items, .passes = &catalogue_passes, .calls_a_lock = 16},
  {.name = "Goravesha, the lock for a relink or report", .relink = catalogue_relink, .report = report_by_totals, .passes = &catalogue_passes, .calls_a_lock = UINT32_MAX},
  {.name = "LMDB", .relink = lmdb_thread_relink, .report = lmdb_whole_report, .passes = &lmdb_passes},
  {.name = "SQLite, busy timeout", .relink = sqlite_thread_relink, .report = sqlite_whole_report, .passes = &sqlite_passes},
  {.name = "SQLite, a mutex around relinks", .relink = sqlite_locked_relink, .report = sqlite_whole_report, .passes = &sqlite_passes},
};

static void open_databases(const char *folder, int durable) {
  lmdb_open(folder, durable, linked);
  sqlite_make(folder, linked);
  for (uint32_t i = 0; i < WORKERS; i++) connections[i] = sqlite_connect(folder, durable);
}

/* A round. */

static pthread_barrier_t all_ready;

static struct relinker {
  pthread_t thread;
  uint32_t number;
  atomic_uint made; /* relinks in this round */
  double from, to;
} relinker[WORKERS];

static void *relinker_thread(void *argument) {
  struct relinker *self = argument;
  pthread_barrier_wait(&all_ready);
  self->from = microseconds();
  for (uint32_t pass = *store->passes; pass < *store->passes + passes_a_round; pass++)
    for (uint32_t place = 0; place < items_each(); place++) {
      store->relink(self->number, item_of(self->number, place), project_of(self->number, place, pass), project_of(self->number, place, pass + 1));
      atomic_fetch_add(&self->made, 1);
    }
  self->to = microseconds();
  return NULL;
}

/* How many relinks each thread has made; whether all have made all. */
static int read_made(uint32_t *made) {
  int all = 1;
  for (uint32_t i = 0; i < relinkers; i++) {
    made[i] = atomic_load(&relinker[i].made);
    all = all && made[i] == items_each() * passes_a_round;
  }
  return all;
}

/* Whether a thread's projects hold what they do after some number of its relinks, from `least` to `most`. */
static int is_of_one_moment(const uint64_t *sums, uint32_t thread, uint32_t least, uint32_t most) {
  uint64_t right[PROJECTS] = {0};
  uint32_t first = thread * projects_each(), pass = *store->passes + least / items_each(), place = least % items_each();
  for (uint32_t i = 0; i < items_each(); i++) right[project_of(thread, i, i < place ? pass + 1 : pass)] += size_of(item_of(thread, i));
  while (memcmp(sums + first, right + first, projects_each() * sizeof *sums) != 0) {
    if (least++ == most) return 0;
    right[project_of(thread, place, pass)] -= size_of(item_of(thread, place));
    right[project_of(thread, place, pass + 1)] += size_of(item_of(thread, place));
    if (++place == items_each()) place = 0, pass++;
  }
  return 1;
}

/* Reports begun while relinks go on, and one after the last. */
static void *reporter_thread(void *argument) {
  struct times *reports = argument;
  uint32_t before[WORKERS], after[WORKERS];
  pthread_barrier_wait(&all_ready);
  for (;;) {
    uint64_t sums[PROJECTS] = {0};
    int last = read_made(before);
    double from = microseconds();
    store->report(sums);
    double to = microseconds();
    read_made(after);
    /* A relink may show before it is counted. */
    for (uint32_t i = 0; i < relinkers; i++) check(is_of_one_moment(sums, i, before[i], last ? before[i] : after[i] + 1), "a report is not of one moment");
    if (last) return NULL;
    add_time(reports, to - from);
    if (pause_between_reports > 0) usleep(pause_between_reports);
  }
}

static double quantile(struct times *times, double part) {
  qsort(times->of, times->count, sizeof *times->of, ascending);
  return times->of[(size_t)(part * (double)(times->count - 1) + 0.5)];
}

/* Answers 0 where the relinks were over before a report began; such a round is played again. */
static int play_round(int round) {
  pthread_t reporter;
  struct times reports = {NULL, 0, 0};
  check(pthread_barrier_init(&all_ready, NULL, relinkers + 1) == 0, "barrier");
  for (uint32_t i = 0; i < relinkers; i++) {
    relinker[i].number = i;
    atomic_store(&relinker[i].made, 0);
    check(pthread_create(&relinker[i].thread, NULL, relinker_thread, &relinker[i]) == 0, "thread");
  }
  check(pthread_create(&reporter, NULL, reporter_thread, &reports) == 0, "thread");
  double from = 0, to = 0;
  for (uint32_t i = 0; i < relinkers; i++) {
    pthread_join(relinker[i].thread, NULL);
    if (i == 0 || relinker[i].from < from) from = relinker[i].from;
    if (relinker[i].to > to) to = relinker[i].to;
  }
  pthread_join(reporter, NULL);
  pthread_barrier_destroy(&all_ready);
  *store->passes += passes_a_round;
  if (reports.count == 0) return 0;
  store->relinking[round] = to - from;
  store->middle_report[round] = quantile(&reports, 0.5);
  for (size_t i = 0; i < reports.count; i++) add_time(&store->reports, reports.of[i]);
  free(reports.of);
  return 1;
}

static void print_short(double number) { printf(number >= 10 ? "%.0f" : number >= 1 ? "%.1f" : "%.2g", number); }

/* The median, and the quartiles. */
static void print_quartiles(struct times *times) {
  print_short(quantile(times, 0.5));
  printf(" (");
  print_short(quantile(times, 0.25));
  printf(" to ");
  print_short(quantile(times, 0.75));
  printf(")");
}

/* The median of the rounds' ratios, and their quartiles: of the store's times to the first store's, round by round. */
static void print_ratio(const double *times, const double *first, int rounds) {
  double ratio[MOST_ROUNDS];
  for (int i = 0; i < rounds; i++) ratio[i] = times[i] / first[i];
  struct times ratios = {ratio, (size_t)rounds, MOST_ROUNDS};
  print_quartiles(&ratios);
}

static void print_row(struct store *shown, int rounds) {
  double seconds = 0;
  for (int i = 0; i < rounds; i++) seconds += 1e-6 * shown->relinking[i];
  printf("| %u | %s | %.0f | ", relinkers, shown->name, ITEMS * passes_a_round * (uint32_t)rounds / seconds);
  print_ratio(shown->relinking, stores[0].relinking, rounds);
  printf(" | ");
  print_quartiles(&shown->reports);
  printf(" | ");
  print_short(quantile(&shown->reports, 0.99));
  printf(" | ");
  print_ratio(shown->middle_report, stores[0].middle_report, rounds);
  printf(" | %zu |\n", shown->reports.count);
}

/* Held for whole reports without a pause between them, the lock hardly ever comes to a relink: seconds for some thousand. */
static int is_left_out(const struct store *asked) { return asked->calls_a_lock == UINT32_MAX && pause_between_reports == 0; }

int main(int arguments, char **argument) {
  check(arguments > 3, "usage: threads RELINKERS ROUNDS PAUSE [FOLDER [durable]]");
  int rounds = atoi(argument[2]), used = arguments > 4 ? STORES : CATALOGUES, durable = arguments > 5;
  relinkers = (uint32_t)atoi(argument[1]);
  pause_between_reports = (uint32_t)atoi(argument[3]);
  passes_a_round = durable ? 60 : 240; /* a commit on disk is slow */
  check((relinkers == 1 || relinkers == 2 || relinkers == 4) && rounds >= 1 && rounds <= MOST_ROUNDS, "relinkers are 1, 2 or 4, rounds 1 to 1000");
  for (uint32_t thread = 0; thread < relinkers; thread++)
    for (uint32_t place = 0; place < items_each(); place++) linked[item_of(thread, place)] = project_of(thread, place, 0);
  make_fresh();
  if (arguments > 4) open_databases(argument[4], durable);
  for (int round = 0; round < rounds; round++)
    for (int which = 0; which < used; which++) {
      store = &stores[which];
      while (!is_left_out(store) && !play_round(round)) {}
    }
  printf("| Threads that relink | | Relinks a second | A relink, as a ratio | A report in us | 99th percentile | A report, as a ratio | Reports |\n");
  printf("|---|---|---|---|---|---|---|---|\n");
  for (int which = 0; which < used; which++)
    if (!is_left_out(&stores[which])) print_row(&stores[which], rounds);
  printf("a fresh catalogue, %zu times, in us: ", makings.count);
  print_quartiles(&makings);
  printf("\n");
  return EXIT_SUCCESS;
}
