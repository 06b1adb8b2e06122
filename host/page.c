/*
 * A dailies room's page, told in words. Two desks relink clips all the time. A third worker answers the page: it takes a snapshot, reads every
 * clip and adds up every project at it, and answers the same page again after the room has moved on. Then each refusal is tried.
 * The exit status is a failure where a page is not of one moment, or a refusal is not the one that it should be.
 *
 * `bash host/page.sh` builds and runs it.
 */
#include "goravesha.h"

#include <inttypes.h>
#include <stdio.h>
#include <stdlib.h>
#include <string.h>

enum { DESKS = 2, PAGE = 2, WORKERS = 3, CLIPS = 6, PROJECTS = 4, NODES = 256, HANDLES = 16 };

static const char *const project_name[PROJECTS] = {"(unlinked)", "Harbour Lights", "Night Ferry", "The Long Tide"};
static const struct { const char *name; uint32_t size, project; } clip[CLIPS] = {
    {"quay, take 1", 1200, 1}, {"quay, take 2", 960, 1}, {"ferry deck", 2400, 2}, {"engine room", 640, 2}, {"storm", 3100, 3}, {"storm, wide", 2750, 3}};

static uint32_t words[GORAVESHA_WORDS(WORKERS, CLIPS, NODES)];
static const size_t count = sizeof words / sizeof words[0];
static unsigned relinked, too_late;

/* No call of the room itself may be refused: it knows its own sizes. */
static uint32_t done(uint32_t code) {
  if (code < GORAVESHA_REFUSED) return code;
  fprintf(stderr, "page: refused %" PRIu32 ". %s\n", code - GORAVESHA_REFUSED, goravesha_text(code));
  exit(EXIT_FAILURE);
}

/* A desk's work: it reads which project a clip is charged to, relinks it to the next one, and goes on to another clip. */
static struct desk { enum { IDLE, READING, RELINKING } doing; uint32_t clip, from, to; } desks[DESKS] = {{IDLE, 4, 0, 0}, {IDLE, 1, 0, 0}};

static void begins_to_read(uint32_t number, struct desk *desk) {
  goravesha_answer answer;
  done(goravesha_start_vread(words, count, number, desk->clip, &answer));
  desk->doing = READING;
}

static void begins_to_relink(uint32_t number, struct desk *desk, uint32_t present) {
  goravesha_answer answer;
  desk->from = present;
  desk->to = (present + 1 + number) % PROJECTS;
  done(goravesha_start_vcas(words, count, number, desk->clip, desk->from, desk->to, &answer));
  desk->doing = RELINKING;
}

/* A relink that came too late (0) changed nothing: the other desk was first. The desk reads the clip's project anew and decides again. */
static void has_relinked(uint32_t number, struct desk *desk, int in_time) {
  const char name = (char)('A' + number);
  desk->doing = IDLE;
  if (!in_time) {
    too_late++;
    printf("  desk %c: \"%s\" is no longer in %s; asks again\n", name, clip[desk->clip].name, project_name[desk->from]);
    return;
  }
  relinked++;
  printf("  desk %c: \"%s\" from %s to %s\n", name, clip[desk->clip].name, project_name[desk->from], project_name[desk->to]);
  desk->clip = (desk->clip + 2 + 3 * number) % CLIPS;
}

/* One turn of a desk: the start of an operation, or one step of it. */
static void turn(uint32_t number) {
  struct desk *desk = &desks[number];
  goravesha_answer answer;
  if (desk->doing == IDLE) begins_to_read(number, desk);
  else if (done(goravesha_step(words, count, number, &answer)) == GORAVESHA_RUNNING) return;
  else if (desk->doing == READING) begins_to_relink(number, desk, (uint32_t)answer.value);
  else has_relinked(number, desk, answer.value == 1);
}

/* The page's own operation, a step at a time. The desks go on meanwhile: after every other step one of them has its turn. */
static uint64_t page_answer(void) {
  static uint32_t steps;
  goravesha_answer answer;
  while (done(goravesha_step(words, count, PAGE, &answer)) == GORAVESHA_RUNNING)
    if (++steps % 2 == 0) turn(steps / 2 % DESKS);
  return answer.value;
}

/* A page: each clip's project and each project's size. */
struct page { uint32_t project[CLIPS]; uint64_t size[PROJECTS]; };

static uint32_t snapshot(void) {
  goravesha_answer answer;
  done(goravesha_start_take_snapshot(words, count, PAGE, &answer));
  return (uint32_t)page_answer();
}

static struct page page_at(uint32_t handle) {
  struct page page;
  memset(&page, 0, sizeof page);
  goravesha_answer answer;
  for (uint32_t item = 0; item < CLIPS; item++) {
    done(goravesha_start_read_snapshot(words, count, PAGE, item, handle, &answer));
    page.project[item] = (uint32_t)page_answer();
  }
  for (uint32_t project = 0; project < PROJECTS; project++) {
    done(goravesha_start_total(words, count, PAGE, project, handle, &answer));
    page.size[project] = page_answer();
  }
  return page;
}

static void print_page(const char *title, const struct page *page) {
  uint64_t together = 0;
  printf("%s:\n", title);
  for (uint32_t project = 0; project < PROJECTS; project++) {
    const char *before = "   ";
    printf("  %-16s%6" PRIu64 " MiB", project_name[project], page->size[project]);
    for (uint32_t item = 0; item < CLIPS; item++) {
      if (page->project[item] != project) continue;
      printf("%s\"%s\" %" PRIu32, before, clip[item].name, clip[item].size);
      before = ", ";
    }
    putchar('\n');
    together += page->size[project];
  }
  printf("  %-16s%6" PRIu64 " MiB\n", "together", together);
}

/* Whether each project's size is that of the clips which the page has in it: then every clip is counted once, at the same moment. */
static int adds_up(const struct page *page) {
  uint64_t size[PROJECTS] = {0};
  for (uint32_t item = 0; item < CLIPS; item++) size[page->project[item]] += clip[item].size;
  return memcmp(size, page->size, sizeof size) == 0;
}

/* The catalogue is made and every clip registered; what is printed is the desks' own list, before any relink. */
static void open_room(void) {
  struct page opening;
  goravesha_answer answer;
  memset(&opening, 0, sizeof opening);
  done(goravesha_make(words, count, WORKERS, CLIPS, NODES, PROJECTS, HANDLES, &answer));
  for (uint32_t item = 0; item < CLIPS; item++) {
    done(goravesha_register(words, count, clip[item].project, clip[item].size, &answer));
    opening.project[item] = clip[item].project;
    opening.size[clip[item].project] += clip[item].size;
  }
  print_page("A dailies room, as it opens", &opening);
}

/* The room's page, the room as it is later, and the first page once more. */
static int story(void) {
  open_room();
  printf("\nTwo desks relink clips all the time:\n");
  for (uint32_t turns = 0; turns < 40; turns++) turn(turns % DESKS);
  uint32_t handle = snapshot();
  printf("\nSomebody asks for the page. A snapshot is taken: handle %" PRIu32 ". Clips and projects are read at it, a small step at a time; meanwhile:\n", handle);
  struct page page = page_at(handle);
  print_page("\nThe page of that moment", &page);
  uint32_t next = snapshot();
  printf("\nAnother snapshot is taken: handle %" PRIu32 ". It is read, and then the first one again; meanwhile:\n", next);
  struct page later = page_at(next);
  struct page again = page_at(handle);
  char title[64];
  snprintf(title, sizeof title, "\nThe room had moved on, at handle %" PRIu32, next);
  print_page(title, &later);
  snprintf(title, sizeof title, "\nThe first page asked again, at handle %" PRIu32, handle);
  print_page(title, &again);
  int of_one_moment = adds_up(&page) && adds_up(&later) && adds_up(&again) && memcmp(&page, &again, sizeof page) == 0;
  if (of_one_moment) printf("\nThe same numbers, and on each page every clip is counted once");
  else printf("\nWRONG: a page is not of one moment");
  printf("; %u relinks were made in all, %u came too late.\n", relinked, too_late);
  printf("%" PRIu32 " of %d nodes (one for each clip and relink, and those that relinks under way hold) and %" PRIu32 " of %d handles are used.\n",
         goravesha_nodes_used(words, count), NODES, goravesha_counter(words, count), HANDLES);
  return of_one_moment;
}

static int as_told = 1;

/* One refusal that was tried: what was asked for, what it answered, and in words. */
static void tried(const char *what, uint32_t code, uint32_t expected) {
  printf("  %2" PRIu32 "  %s: %s\n", code >= GORAVESHA_REFUSED ? code - GORAVESHA_REFUSED : code, what, goravesha_text(code));
  if (code == expected) return;
  printf("      WRONG: %" PRIu32 " was to be answered\n", expected - GORAVESHA_REFUSED);
  as_told = 0;
}

/* Each refusal once, in the order of the numbers, in a catalogue of 1 worker, 2 items, 2 nodes, 2 projects and 1 handle. */
static int refusals(void) {
  uint32_t small[GORAVESHA_WORDS(1, 2, 2)] = {0};
  const size_t few = sizeof small / sizeof small[0];
  goravesha_answer answer;
  printf("\nWhat is refused, each by its number and in words:\n");
  tried("a catalogue of no workers", goravesha_make(small, few, 0, 2, 2, 2, 1, &answer), GORAVESHA_BAD_SIZE);
  tried("a clip, before any catalogue is made", goravesha_register(small, few, 1, 10, &answer), GORAVESHA_DAMAGED);
  done(goravesha_make(small, few, 1, 2, 2, 2, 1, &answer));
  done(goravesha_register(small, few, 1, 10, &answer));
  tried("a snapshot by worker 1 of 1", goravesha_start_take_snapshot(small, few, 1, &answer), GORAVESHA_NO_SUCH_WORKER);
  done(goravesha_start_take_snapshot(small, few, 0, &answer));
  tried("a second snapshot by worker 0", goravesha_start_take_snapshot(small, few, 0, &answer), GORAVESHA_WORKER_BUSY);
  done(goravesha_finish(small, few, 0, &answer));
  tried("a step after the last one", goravesha_step(small, few, 0, &answer), GORAVESHA_WORKER_IDLE);
  tried("the project of clip 7", goravesha_start_vread(small, few, 0, 7, &answer), GORAVESHA_NOT_REGISTERED);
  tried("a relink to project 9", goravesha_start_vcas(small, few, 0, 0, 1, 9, &answer), GORAVESHA_NO_SUCH_PROJECT);
  tried("a project's size at handle 5", goravesha_start_total(small, few, 0, 1, 5, &answer), GORAVESHA_NO_SUCH_HANDLE);
  done(goravesha_register(small, few, 1, 20, &answer));
  tried("a new clip at an old handle", goravesha_start_read_snapshot(small, few, 0, 1, 0, &answer), GORAVESHA_BORN_LATER);
  tried("a third clip of two", goravesha_register(small, few, 1, 30, &answer), GORAVESHA_ITEMS_FULL);
  done(goravesha_start_vcas(small, few, 0, 0, 1, 0, &answer));
  tried("a relink, where no node is left", goravesha_finish(small, few, 0, &answer), GORAVESHA_NODES_FULL);
  done(goravesha_start_take_snapshot(small, few, 0, &answer));
  tried("a snapshot, where no handle is left", goravesha_finish(small, few, 0, &answer), GORAVESHA_COUNTER_FULL);
  return as_told;
}

int main(void) {
  int of_one_moment = story();
  return refusals() && of_one_moment ? EXIT_SUCCESS : EXIT_FAILURE;
}
