/*
 * Goravesha: which project is each linked media item charged to, and how large is each project, at one moment.
 *
 * All state stands in words that the host lends: GORAVESHA_WORDS(P, M, N) numbers of 32 bits, at any address that is good for
 * uint32_t. Words past those are never touched. No call allocates, locks, prints or keeps a pointer, and none asks anything of its numbers:
 * every call may be made with any numbers on any words, of any count. What the host owes: `words` is good for `count` words, `answer` for its
 * four numbers, apart from the words; and calls on the same words come one after the other.
 *
 * Every call returns the code of its answer and writes the answer's four numbers: value, steps, and two that are 0.
 *
 *   code                   value                              steps
 *   GORAVESHA_FINISHED     what the operation answers         how many steps it took, this one included
 *   GORAVESHA_RUNNING      0                                  how many steps it has taken, this one included
 *   GORAVESHA_ACCEPTED     register: the item number; else 0  0
 *   GORAVESHA_REFUSED + n  0                                  0; where a step ends an operation with 11 or 12, its steps
 *
 * A refusal changes no word, with one exception: 11 and 12 in a step end the operation and make the worker idle (its record all zero).
 * Where several refusals apply, a damaged header (2) comes first and then the order of the numbers, a worker's damage (2) right after 3,
 * an item's (2) right after 6, a node's (2) last.
 *
 *    1  GORAVESHA_BAD_SIZE         make: a size outside its range, or too few lent words
 *    2  GORAVESHA_DAMAGED          a word that the call uses is outside its range (docs/FIELDS.md), or fewer words are lent than the header needs
 *    3  GORAVESHA_NO_SUCH_WORKER   the worker number is P or more
 *    4  GORAVESHA_WORKER_BUSY      start: the worker is in an operation
 *    5  GORAVESHA_WORKER_IDLE      step, abandon: the worker is idle
 *    6  GORAVESHA_NOT_REGISTERED   the item number is not registered
 *    7  GORAVESHA_NO_SUCH_PROJECT  a project number is Q or more
 *    8  GORAVESHA_NO_SUCH_HANDLE   the handle is at or above the present counter
 *    9  GORAVESHA_BORN_LATER       read snapshot: the handle is below the item's birth stamp (in damaged words TBD, which is above every handle)
 *   10  GORAVESHA_ITEMS_FULL       register: M items exist
 *   11  GORAVESHA_NODES_FULL       register, or a vCAS at line 45: no node waits and all N were used
 *   12  GORAVESHA_COUNTER_FULL     take snapshot at line 5: the counter is C
 *   13  GORAVESHA_BAD_FRAME        the schedule program alone: a line that is no frame
 *
 * The names stand for the codes, GORAVESHA_REFUSED + n. goravesha_text(code) says each in a sentence. Later versions may add numbers.
 *
 * How it is used (link with -lgoravesha)
 *
 *   make      once, in words of your own: an array, memory from malloc, mapped or shared memory.
 *   register  each item once, with its project and its size. Items are numbered from 0. Project 0 means unlinked.
 *   worker    a number from 0 to P - 1 that runs one operation at a time: a start begins it, steps carry it out. goravesha_finish steps it to its end;
 *             goravesha_abandon gives it up, where whoever stepped it has died.
 *   relink    a vCAS. It answers 1: the item is charged to the new project. Or 0: it was charged to another project than `old_project` by then.
 *             Nothing is wrong and nothing was changed. Read the item's present project (vRead), and decide anew whether the relink is still wanted.
 *   page      take a snapshot; its answer is a handle, which fits 32 bits. Totals and reads at this handle are those of one moment, however late and
 *             in whatever order they are asked, and whatever is relinked meanwhile. The totals of projects 0 to Q - 1 at a handle make up the sizes of
 *             all items registered by then.
 *
 * How long a catalogue lasts
 *
 *   Nodes    each register takes a node, and so does each relink that changes an item's project. This version gives none of them back. A vCAS
 *            that is under way may hold one more; it gives it back if it loses, or if it is abandoned before its change is published. So choose N
 *            at least items + relinks + changes under way (at most P). N - goravesha_nodes_used(words, count) nodes are left. A service that
 *            starts a relink only while P or more are left, and registers only while more than P are left, is never refused with 11 in a step.
 *   Handles  each snapshot uses up one of the C handles (those taken at the same time may share one). C - goravesha_counter(words, count) are
 *            left. C costs no memory: take the largest unless you want a limit, or a recording (goravesha_record.h: C at most 65,535).
 *   At 11 and 12  finish what is under way, make a new catalogue in other words, and register each item anew with its present project (a vRead in
 *            the old one). Old handles count in the old catalogue alone. It still answers vRead, readSnapshot and total: keep its words while its
 *            pages are asked for. At 12 relinks go on as before; at 11 snapshots do.
 *   At 2     something else wrote into the words, or they hold no catalogue: never made, cut short, of another byte order. The call changed
 *            nothing. What other calls answer from such words is worth no more than the words. Make a new catalogue and register anew from your
 *            own records; then look for what wrote there. 2 never comes in words that were made, are lent whole, and that these calls alone have
 *            written.
 *
 * Threads
 *
 *   Calls on the same words come one after the other. From threads: one mutex for each catalogue, held around every call, the functions that only
 *   look included. Give each thread a worker number and a goravesha_answer of its own. Hold the mutex for a whole relink, a start with its
 *   goravesha_finish; let it go after some 16 calls of a long report, so that others are let in, and pause between reports. Where no other thread
 *   wants it, a lock and unlock takes about one and a half times as long as a step (some 15 ns and 10 ns on a virtual x86-64 machine). Where
 *   threads contend, a lock for each call made relinks four to five times as long as a lock for each relink (docs/PERFORMANCE.md).
 *   Where a thread or process has ended between two steps of an operation, any other may step that worker to its end (goravesha_finish), and has the answer;
 *   or abandon it (goravesha_abandon), and has none. Either way the worker is free again. After an abandoned relink, read the item's present project (vRead)
 *   and decide anew. Be sure that it has ended: one that goes on is refused with 5, or steps the operation that the worker was given next, and takes its
 *   answer. One that ended inside a call may have left words half written: make a new catalogue. One that ended while it held the mutex may have been inside
 *   one. So a daemon that may be killed holds the mutex for each call alone, and between processes the mutex is a robust one
 *   (pthread_mutexattr_setrobust), which tells of such a death and can be taken again.
 *
 * Where the words may live
 *
 *   The words hold numbers alone, no pointer and no address. They may stand in shared or mapped memory, at another address in each process (the mutex
 *   is then one between processes), be copied, and be saved and loaded as bytes, running operations included, on machines of the same byte order.
 *
 * Proved of the source (see README.md): for every input the answer and every lent word are those of the definitions in
 * crates/definitions/specs, nothing outside the lent words is read or written, nothing overflows, and every call returns. The functions at the end of
 * this file are plain C around them: tested (tests/header.sh), not proved.
 */
#ifndef GORAVESHA_H
#define GORAVESHA_H

#include <stddef.h>
#include <stdint.h>

#ifdef __cplusplus
extern "C" {
#endif

/* The version of this header and archive, as text and as a number: 1.2.3 is 10203. */
#define GORAVESHA_VERSION "1.1.0"
#define GORAVESHA_VERSION_NUMBER 10100

/* The codes that a call returns. Each from GORAVESHA_BAD_SIZE on is a refusal: GORAVESHA_REFUSED and its number. */
enum {
  GORAVESHA_FINISHED = 0,
  GORAVESHA_RUNNING = 1,
  GORAVESHA_ACCEPTED = 2,
  GORAVESHA_REFUSED = 16,
  GORAVESHA_BAD_SIZE = 17,
  GORAVESHA_DAMAGED = 18,
  GORAVESHA_NO_SUCH_WORKER = 19,
  GORAVESHA_WORKER_BUSY = 20,
  GORAVESHA_WORKER_IDLE = 21,
  GORAVESHA_NOT_REGISTERED = 22,
  GORAVESHA_NO_SUCH_PROJECT = 23,
  GORAVESHA_NO_SUCH_HANDLE = 24,
  GORAVESHA_BORN_LATER = 25,
  GORAVESHA_ITEMS_FULL = 26,
  GORAVESHA_NODES_FULL = 27,
  GORAVESHA_COUNTER_FULL = 28,
  GORAVESHA_BAD_FRAME = 29
};

/* How many words a catalogue of P workers, M items and N nodes needs. */
#define GORAVESHA_WORDS(P, M, N) ((size_t)16 + (size_t)16 * (P) + (size_t)4 * (M) + (size_t)3 * (N))

/* The answer's four numbers. `stamped` and `operator_number` are kept for later versions: today every call writes 0 there. */
typedef struct { uint64_t value, steps, stamped, operator_number; } goravesha_answer;

/* The calls write four numbers of 64 bits, side by side. (An array of -1 where that is not so: every C and C++ refuses it.) */
typedef char goravesha_answer_is_32_bytes[sizeof(goravesha_answer) == 32 ? 1 : -1];

/* Of a call: its code must be looked at, and the argument at this place, `answer`, is not NULL. */
#if defined(__GNUC__) || defined(__clang__)
#define GORAVESHA_CHECKED(place) __attribute__((warn_unused_result, nonnull(place)))
#else
#define GORAVESHA_CHECKED(place)
#endif

/*
 * A fresh catalogue: P (1 to 64) workers, at most M (1 to 256) items and N (1 to 4,096) nodes, Q (1 to 256) projects, counter at most
 * C (1 to 4,294,967,294). Every needed word is set, the unused ones to zero. Refusal: 1. It never answers 2: what the words held is of no account.
 */
GORAVESHA_CHECKED(8)
uint32_t goravesha_make(uint32_t *words, size_t count, uint32_t workers, uint32_t items, uint32_t nodes, uint32_t projects,
                        uint32_t counter, goravesha_answer *answer);

/*
 * A new item, charged to `project`, of `size` MiB (any number); the answer's value is its number. It takes a node and stamps it with the present
 * counter. Refusals: 2, 7, 10, 11, 2 (the first node given back, where one waits).
 */
GORAVESHA_CHECKED(5)
uint32_t goravesha_register(uint32_t *words, size_t count, uint32_t project, uint32_t size, goravesha_answer *answer);

/* Starts. Each writes the worker's record alone and is not a step. */

/* vRead: the item's present project, in 3 or 5 steps. Refusals: 2, 3, 2 (worker), 4, 6, 2 (item). */
GORAVESHA_CHECKED(5)
uint32_t goravesha_start_vread(uint32_t *words, size_t count, uint32_t worker, uint32_t item, goravesha_answer *answer);

/*
 * vCAS: charge the item to `new_project` if it is charged to `old_project`: answers 1 or 0, in at most 13 steps. Refusals: 2, 3, 2 (worker), 4, 6,
 * 2 (item), 7. (11 comes at its line 45.)
 */
GORAVESHA_CHECKED(7)
uint32_t goravesha_start_vcas(uint32_t *words, size_t count, uint32_t worker, uint32_t item, uint32_t old_project, uint32_t new_project,
                              goravesha_answer *answer);

/* takeSnapshot: answers a handle, in 2 steps. Refusals: 2, 3, 2 (worker), 4. (12 comes at its first step.) */
GORAVESHA_CHECKED(4)
uint32_t goravesha_start_take_snapshot(uint32_t *words, size_t count, uint32_t worker, goravesha_answer *answer);

/* readSnapshot: the project the item was charged to when the counter left the handle. Refusals: 2, 3, 2 (worker), 4, 6, 2 (item), 8, 9. */
GORAVESHA_CHECKED(6)
uint32_t goravesha_start_read_snapshot(uint32_t *words, size_t count, uint32_t worker, uint32_t item, uint32_t handle,
                                       goravesha_answer *answer);

/*
 * total: the summed size in MiB of the items charged to the project when the counter left the handle, in at most 5,121 steps.
 * Refusals: 2, 3, 2 (worker), 4, 7, 8.
 */
GORAVESHA_CHECKED(6)
uint32_t goravesha_start_total(uint32_t *words, size_t count, uint32_t worker, uint32_t project, uint32_t handle,
                               goravesha_answer *answer);

/*
 * One step of a worker: one line of Algorithm 1. Answers RUNNING, or FINISHED with the operation's value, and the steps so far.
 * Refusals: 2, 3, 2 (worker, with its step count and at line 6 the number read at 5, which no start tests), 5, 2 (item), 2 (node); 11 at line 45
 * and 12 at line 5 end the operation.
 */
GORAVESHA_CHECKED(4)
uint32_t goravesha_step(uint32_t *words, size_t count, uint32_t worker, goravesha_answer *answer);

/*
 * Abandons a worker: it is idle at once, its record all zero, and the operation that it was in is over without an answer. Answers ACCEPTED. It is not a
 * step, and stamps nothing; what the operation has stamped stays stamped. What becomes of it:
 *   a relink that has not published its change, which line 46 does, never takes effect. A node that it has taken (it stands at line 46 or 50) goes back, as
 *   line 50 returns it.
 *   a relink that has published its change takes effect once, when its node is stamped: by itself before this call, or by any other operation that meets
 *   the node, before this call or after it. Once a vRead of the item that was started after this call has answered, it has taken effect.
 *   any other operation never takes effect. (A takeSnapshot moves the counter in its last step alone.)
 * Refusals: 2, 3, 2 (worker, as at a start), 5, 2 (node: where one goes back, its link, and the first node given back, where one waits). The item's record
 * is not used: an operation on an item that is damaged can be abandoned too.
 */
GORAVESHA_CHECKED(4)
uint32_t goravesha_abandon(uint32_t *words, size_t count, uint32_t worker, goravesha_answer *answer);

/* What follows is made of the calls above and of looks at the words; nothing of it is in the archive. */

/*
 * Steps a worker until its operation has ended or a call is refused: the code and the answer of the last step, never GORAVESHA_RUNNING. It ends on
 * any words: within 5,121 steps, and in damaged words, where an operation would go on for ever, the step after those is refused with 2.
 */
GORAVESHA_CHECKED(4)
static inline uint32_t goravesha_finish(uint32_t *words, size_t count, uint32_t worker, goravesha_answer *answer) {
  uint32_t code;
  do code = goravesha_step(words, count, worker, answer);
  while (code == GORAVESHA_RUNNING);
  return code;
}

/*
 * How full a catalogue is. These read the lent words and change none, and none reads past `count`. With too few words, fewer than 16 or fewer than
 * the header says it needs, each answers 0. In words that are no catalogue the numbers mean nothing.
 */

/* 1 where as many words are lent as their header needs, else 0. */
static inline int goravesha_lent_whole(const uint32_t *words, size_t count) {
  uint64_t workers, items, nodes;
  if (count < 16) return 0;
  workers = words[0];
  items = words[1];
  nodes = words[2];
  return 16 + 16 * workers + 4 * items + 3 * nodes <= count;
}

/* How many items are registered. At M register is refused with 10. */
static inline uint32_t goravesha_items(const uint32_t *words, size_t count) { return goravesha_lent_whole(words, count) ? words[6] : 0; }

/* The counter: how many handles there are. Handles 0 to counter - 1 can be read; at C takeSnapshot is refused with 12. */
static inline uint32_t goravesha_counter(const uint32_t *words, size_t count) { return goravesha_lent_whole(words, count) ? words[5] : 0; }

/*
 * How many nodes are in use: each is a version of an item, or held by a vCAS under way. The nodes that lost and abandoned vCAS have given back are not
 * counted, since they are taken again first. So N less this number can still be taken, and at N register and relinks are refused with 11. It goes
 * through the nodes given back, which are few, and never more than 4,096.
 */
static inline uint32_t goravesha_nodes_used(const uint32_t *words, size_t count) {
  uint64_t workers, items, next, nodes, older;
  uint32_t used, waiting = 0;
  if (!goravesha_lent_whole(words, count)) return 0;
  workers = words[0];
  items = words[1];
  used = words[7];                        /* nodes ever taken */
  next = words[8];                        /* the node last given back, as its number plus one; 0: none */
  nodes = 16 + 16 * workers + 4 * items; /* where node 0 stands: three words each, the second names the one given back before it */
  while (next != 0 && next <= used && waiting < 4096) {
    older = nodes + 3 * (next - 1) + 1;
    if (older >= count) break;
    next = words[older];
    waiting++;
  }
  return waiting < used ? used - waiting : 0;
}

/* 1 where the worker is in an operation. 0 where it is idle, and where its number is P or more. */
static inline int goravesha_busy(const uint32_t *words, size_t count, uint32_t worker) {
  uint64_t number = worker;
  if (!goravesha_lent_whole(words, count) || worker >= words[0]) return 0;
  return words[16 + 16 * number] != 0;
}

/* A sentence for each code: what it means and, for a refusal, what to do. Never NULL; one sentence for every code that this version does not know. */
static inline const char *goravesha_text(uint32_t code) {
  switch (code) {
    case GORAVESHA_FINISHED: return "The operation has finished; the answer holds its value and its steps.";
    case GORAVESHA_RUNNING: return "The operation goes on; step the worker again.";
    case GORAVESHA_ACCEPTED: return "Done: the catalogue is made, the item registered, the operation started or the worker abandoned.";
    case GORAVESHA_BAD_SIZE: return "A size is outside its range, or too few words are lent; see goravesha_make and GORAVESHA_WORDS.";
    case GORAVESHA_DAMAGED: return "The words are damaged, too few or hold no catalogue; make a new one and look for what wrote into them.";
    case GORAVESHA_NO_SUCH_WORKER: return "There is no worker of this number; they are numbered from 0 to P - 1.";
    case GORAVESHA_WORKER_BUSY: return "The worker is in an operation; step it to its end first, or abandon it, if whoever stepped it has died.";
    case GORAVESHA_WORKER_IDLE: return "The worker is idle; there is no operation to step or to abandon.";
    case GORAVESHA_NOT_REGISTERED: return "No item of this number is registered.";
    case GORAVESHA_NO_SUCH_PROJECT: return "There is no project of this number; they are numbered from 0 to Q - 1, and 0 means unlinked.";
    case GORAVESHA_NO_SUCH_HANDLE: return "No snapshot has this handle yet; take one first.";
    case GORAVESHA_BORN_LATER: return "The item was registered after this snapshot; it has no project there.";
    case GORAVESHA_ITEMS_FULL: return "All M items are registered; make a larger catalogue.";
    case GORAVESHA_NODES_FULL: return "All N nodes are in use; make a new catalogue and register the items anew.";
    case GORAVESHA_COUNTER_FULL: return "All C handles are taken; make a new catalogue and register the items anew.";
    case GORAVESHA_BAD_FRAME: return "The line is no frame; only the schedule program says so.";
    default: return "This code is unknown to this version.";
  }
}

#ifdef __cplusplus
}
#endif
#endif
