/*
 * An example service with threads: three threads relink thirty items between projects, a fourth keeps printing the room's page. One mutex stands
 * around the calls, and is let go after every step, so the page's totals and the relinks go on side by side. Each page adds up all the same. (To show
 * that. A service in a hurry holds it for a whole relink, and for some 16 calls of a page: see goravesha.h.)
 *
 * Meanwhile a transfer daemon dies in mid-relink, time after time. A watchman abandons its worker, looks whether the relink stands, and starts the next
 * daemon on the same worker.
 *
 * build: cc example_threads.c $(pkg-config --cflags --libs goravesha) -pthread
 */
#include <goravesha.h>

#include <inttypes.h>
#include <pthread.h>
#include <stdio.h>
#include <stdlib.h>

enum { RELINKERS = 3, PAGE = RELINKERS, DAEMON, WORKERS, ITEMS = 30, PROJECTS = 6, RELINKS_EACH = 1000 };
/*
 * The daemon has the last item to itself. Its relink takes 9 steps, or 7 where the page stamps its node before it does, and from the fifth on, line 46, the
 * change stands. So it dies after 0 to 6 of them: its relink is under way then, whatever the page does.
 */
enum { DAEMON_ITEM = ITEMS - 1, FEWEST_STEPS = 7, PUBLISHING_STEP = 5, DEATHS = 10 * FEWEST_STEPS };
/* A node for each item and each relink, and one for each relink under way. */
enum { NODES = ITEMS + RELINKERS * RELINKS_EACH + DEATHS + RELINKERS + 1 };

static uint32_t words[GORAVESHA_WORDS(WORKERS, ITEMS, NODES)];
static const size_t count = sizeof words / sizeof words[0];
static pthread_mutex_t mutex = PTHREAD_MUTEX_INITIALIZER;
static uint32_t relinkers_left = RELINKERS; /* guarded by the mutex, as the words are */
static uint32_t left_standing;              /* relinks of daemons that died; the watchman's until it has ended */

static void lock(void) { pthread_mutex_lock(&mutex); }
static void unlock(void) { pthread_mutex_unlock(&mutex); }

/* This service lends enough words, nodes and handles for all it does: a refusal is an error in the service. */
static uint32_t accepted(uint32_t code) {
  if (code >= GORAVESHA_REFUSED) {
    fprintf(stderr, "refused: %s\n", goravesha_text(code));
    exit(EXIT_FAILURE);
  }
  return code;
}

/* The started operation of a worker, step by step; others are let in between. */
static uint64_t finish_in_turns(uint32_t worker) {
  goravesha_answer answer;
  uint32_t code;
  do {
    lock();
    code = goravesha_step(words, count, worker, &answer);
    unlock();
  } while (accepted(code) == GORAVESHA_RUNNING);
  return answer.value;
}

static uint32_t present_project(uint32_t worker, uint32_t item) {
  goravesha_answer answer;
  lock();
  accepted(goravesha_start_vread(words, count, worker, item, &answer));
  accepted(goravesha_finish(words, count, worker, &answer)); /* a few steps: not worth letting go between them */
  unlock();
  return (uint32_t)answer.value;
}

static int relink(uint32_t worker, uint32_t item, uint32_t from, uint32_t to) {
  goravesha_answer answer;
  lock();
  accepted(goravesha_start_vcas(words, count, worker, item, from, to, &answer));
  unlock();
  return finish_in_turns(worker) == 1;
}

/* A relinker: each item in turn to the next project. A relink that comes too late is decided anew from what the item is charged to by then. */
static void *relinker(void *argument) {
  uint32_t worker = *(const uint32_t *)argument;
  for (uint32_t done = 0; done < RELINKS_EACH; done++) {
    uint32_t item = (done + worker) % DAEMON_ITEM, from;
    do from = present_project(worker, item);
    while (!relink(worker, item, from, (from + 1) % PROJECTS));
  }
  lock();
  relinkers_left--;
  unlock();
  return NULL;
}

/* A daemon: it begins a relink, and dies between two steps. */
struct daemon {
  uint32_t from, to, steps;
};

static void *dying_daemon(void *argument) {
  const struct daemon *daemon = argument;
  goravesha_answer answer;
  lock();
  accepted(goravesha_start_vcas(words, count, DAEMON, DAEMON_ITEM, daemon->from, daemon->to, &answer));
  unlock();
  for (uint32_t step = 0; step < daemon->steps; step++) {
    lock();
    accepted(goravesha_step(words, count, DAEMON, &answer));
    unlock();
  }
  return NULL;
}

/* The daemon is known to be dead: its worker is free at once. Only the item says whether the relink stands. */
static uint32_t project_after_abandon(void) {
  goravesha_answer answer;
  lock();
  accepted(goravesha_abandon(words, count, DAEMON, &answer));
  unlock();
  return present_project(DAEMON, DAEMON_ITEM);
}

static void *watchman(void *argument) {
  (void)argument;
  struct daemon daemon = {.from = DAEMON_ITEM % PROJECTS};
  for (uint32_t death = 0; death < DEATHS; death++) {
    pthread_t thread;
    daemon.to = (daemon.from + 1) % PROJECTS;
    daemon.steps = death % FEWEST_STEPS;
    if (pthread_create(&thread, NULL, dying_daemon, &daemon) != 0) exit(EXIT_FAILURE);
    pthread_join(thread, NULL);
    uint32_t present = project_after_abandon();
    if (present != (daemon.steps < PUBLISHING_STEP ? daemon.from : daemon.to)) {
      fprintf(stderr, "after a daemon that died after %" PRIu32 " steps the item is in project %" PRIu32 "\n", daemon.steps, present);
      exit(EXIT_FAILURE);
    }
    left_standing += present != daemon.from;
    daemon.from = present;
  }
  return NULL;
}

static uint32_t snapshot(void) {
  goravesha_answer answer;
  lock();
  accepted(goravesha_start_take_snapshot(words, count, PAGE, &answer));
  accepted(goravesha_finish(words, count, PAGE, &answer));
  unlock();
  return (uint32_t)answer.value;
}

static uint64_t size_at(uint32_t project, uint32_t handle) {
  goravesha_answer answer;
  lock();
  accepted(goravesha_start_total(words, count, PAGE, project, handle, &answer));
  unlock();
  return finish_in_turns(PAGE);
}

/* A page: the sizes of all projects at a snapshot. It must add up to all items, whatever moves meanwhile. */
static void page(uint64_t all, uint64_t *size) {
  uint32_t handle = snapshot();
  uint64_t sum = 0;
  for (uint32_t project = 0; project < PROJECTS; project++) sum += size[project] = size_at(project, handle);
  if (sum != all || size_at(0, handle) != size[0]) {
    fprintf(stderr, "the page at handle %" PRIu32 " is not of one moment: %" PRIu64 " MiB of %" PRIu64 "\n", handle, sum, all);
    exit(EXIT_FAILURE);
  }
}

/* When all is quiet: the page is what the items say one by one, and each relink that stands used a node; those of dead daemons that do not used none. */
static void check_at_the_end(const uint32_t *item_size, const uint64_t *size) {
  uint64_t by_item[PROJECTS] = {0};
  for (uint32_t item = 0; item < ITEMS; item++) by_item[present_project(PAGE, item)] += item_size[item];
  for (uint32_t project = 0; project < PROJECTS; project++) {
    if (by_item[project] == size[project]) continue;
    fprintf(stderr, "project %" PRIu32 " is %" PRIu64 " MiB by its items, %" PRIu64 " on the page\n", project, by_item[project], size[project]);
    exit(EXIT_FAILURE);
  }
  if (goravesha_nodes_used(words, count) != ITEMS + RELINKERS * RELINKS_EACH + left_standing) {
    fprintf(stderr, "%" PRIu32 " nodes are in use, not one for each item and relink\n", goravesha_nodes_used(words, count));
    exit(EXIT_FAILURE);
  }
}

int main(void) {
  static uint32_t number[RELINKERS], item_size[ITEMS];
  static pthread_t thread[RELINKERS], watching;
  goravesha_answer answer;
  uint64_t all = 0, size[PROJECTS];
  accepted(goravesha_make(words, count, WORKERS, ITEMS, NODES, PROJECTS, 4294967294u, &answer));
  for (uint32_t item = 0; item < ITEMS; item++) {
    all += item_size[item] = 100 * (item + 1);
    accepted(goravesha_register(words, count, item % PROJECTS, item_size[item], &answer));
  }
  for (uint32_t worker = 0; worker < RELINKERS; worker++) {
    number[worker] = worker;
    if (pthread_create(&thread[worker], NULL, relinker, &number[worker]) != 0) return EXIT_FAILURE;
  }
  if (pthread_create(&watching, NULL, watchman, NULL) != 0) return EXIT_FAILURE;
  uint32_t pages = 0, left;
  do {
    page(all, size);
    pages++;
    lock();
    left = relinkers_left;
    unlock();
  } while (left > 0);
  for (uint32_t worker = 0; worker < RELINKERS; worker++) pthread_join(thread[worker], NULL);
  pthread_join(watching, NULL);
  page(all, size);
  check_at_the_end(item_size, size);
  printf("%" PRIu32 " pages of %d projects while %d threads made %d relinks: each page added up to %" PRIu64 " MiB\n", pages, PROJECTS, RELINKERS, RELINKERS * RELINKS_EACH,
         all);
  printf("%d daemons died in mid-relink, each on the same worker: %" PRIu32 " relinks stand, and no node is lost\n", DEATHS, left_standing);
  return EXIT_SUCCESS;
}
