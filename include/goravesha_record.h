/*
 * A recorder: makes calls of goravesha.h and writes each as a frame, so that what a service did can be run again by the program schedule, told in
 * words by tools/explain.py and drawn by tools/timeline.py.
 *
 *   FILE *frames = fopen("frames", "w"), *answers = fopen("answers", "w");
 *   goravesha_recorder recorder;
 *   goravesha_record_begin(&recorder, frames, answers);
 *   code = goravesha_recorded_make(&recorder, words, count, 4, 30, 500, 8, 65535, &answer);      then every call so
 *   if (!goravesha_record_complete(&recorder)) goravesha_record_report(&recorder, stderr);
 *
 *   $ schedule < frames | cmp - answers           the answers that the service saw, or where they first differ
 *
 * Each goravesha_recorded_NAME makes the call goravesha_NAME, with the same arguments and the same answer, and then writes one line of `frames` and,
 * where there is such a file, of `answers`. It asks of the host what the call asks, and keeps the two files' pointers. Begin before the first
 * make, and make all calls on the words through one recorder: it sees no other. Each catalogue has a recorder and files of its own.
 * From threads: inside the same mutex as the calls. Lines are buffered as the files are; for a service that may be killed, setvbuf(frames, NULL, _IOLBF, 0).
 *
 * What does not fit. A frame's arguments have four digits. A number above 65,535 has no frame: a size in MiB, the counter's limit C, a handle, and what
 * is refused anyway. No wrong frame is written for it: the call is made and left out. If it was refused it changed no word, and the recording goes on. If it
 * was accepted (register, or make), all later calls are left out too, up to a make that fits and is accepted. An abandon has no frame at all, and is left
 * out in the same way: once one is accepted, so are all later calls up to a make. So each frame that is written finds in
 * schedule what it found in the service. A service that is to be recorded whole makes with C at most 65,535, registers sizes of at most 65,535 MiB, and steps
 * the worker of a dead daemon to its end instead of abandoning it.
 *
 * Where answers then differ, something else wrote into the service's words, or a call went past the recorder; with one exception: schedule lends 16,384
 * words, enough for every catalogue. A service that lends fewer than its catalogue needs is refused with 1 or 2, and schedule is not.
 */
#ifndef GORAVESHA_RECORD_H
#define GORAVESHA_RECORD_H

#include <stdio.h>

#include "goravesha.h"

#ifdef __cplusplus
extern "C" {
#endif

enum { GORAVESHA_FRAME_LARGEST = 65535, GORAVESHA_FRAME_ARGUMENTS = 5 };

typedef struct {
  FILE *frames, *answers;
  uint64_t calls;             /* made through the recorder */
  uint64_t written;           /* of these, written as frames */
  uint64_t unfit_call;        /* the first call with a number that does not fit or without a frame, from 1; 0: there is none */
  uint32_t unfit_number;      /* that number, */
  const char *unfit_argument; /* and which argument it is; NULL: it was an abandon */
  int in_a_gap;               /* 1 after such a call that was accepted: schedule could not follow */
  int failed;                 /* 1 after a write that failed */
} goravesha_recorder;

/* A call as schedule reads it: its operation's number, and its arguments with their names. Operation 0: there is no frame for it. */
typedef struct {
  unsigned operation, arguments;
  uint32_t number[GORAVESHA_FRAME_ARGUMENTS];
  const char *name[GORAVESHA_FRAME_ARGUMENTS];
} goravesha_frame;

/* Begins a recording into `frames`, and of the answers into `answers`, which may be NULL. Opening and closing the files is the caller's. */
static inline void goravesha_record_begin(goravesha_recorder *recorder, FILE *frames, FILE *answers) {
  const goravesha_recorder begun = {frames, answers, 0, 0, 0, 0, "", 0, 0};
  *recorder = begun;
}

/* Which argument does not fit; the number of arguments where all do. */
static inline unsigned goravesha_record_unfit(const goravesha_frame *frame) {
  unsigned at = 0;
  while (at < frame->arguments && frame->number[at] <= GORAVESHA_FRAME_LARGEST) at++;
  return at;
}

/* Puts a number's last so many hexadecimal digits; where the text goes on. By hand, since printf takes longer than most calls. */
static inline char *goravesha_record_digits(char *to, uint64_t number, unsigned digits) {
  unsigned at;
  for (at = digits; at-- > 0; number >>= 4) to[at] = "0123456789abcdef"[number & 15];
  return to + digits;
}

static inline void goravesha_record_line(goravesha_recorder *recorder, FILE *file, char *line, char *end) {
  *end++ = '\n';
  if (fwrite(line, 1, (size_t)(end - line), file) != (size_t)(end - line)) recorder->failed = 1;
}

static inline void goravesha_record_write(goravesha_recorder *recorder, const goravesha_frame *frame, uint32_t code, const goravesha_answer *answer) {
  char line[64], *end = goravesha_record_digits(line, frame->operation, 2);
  unsigned at;
  for (at = 0; at < frame->arguments; at++) end = goravesha_record_digits(end, frame->number[at], 4);
  goravesha_record_line(recorder, recorder->frames, line, end);
  recorder->written++;
  if (recorder->answers == NULL) return;
  end = goravesha_record_digits(line, code, 2);
  end = goravesha_record_digits(end, answer->value, 16);
  end = goravesha_record_digits(end, answer->steps, 4);
  goravesha_record_line(recorder, recorder->answers, line, end);
}

/* Records a call that was made and answered, and hands its code on. */
static inline uint32_t goravesha_record_call(goravesha_recorder *recorder, const goravesha_frame *frame, uint32_t code, const goravesha_answer *answer) {
  const unsigned unfit = goravesha_record_unfit(frame);
  const int fits = frame->operation != 0 && unfit == frame->arguments, accepted = code < GORAVESHA_REFUSED;
  recorder->calls++;
  if (!fits && recorder->unfit_call == 0) {
    recorder->unfit_call = recorder->calls;
    recorder->unfit_number = frame->number[unfit];
    recorder->unfit_argument = frame->name[unfit];
  }
  if (!fits && accepted) recorder->in_a_gap = 1;
  if (fits && accepted && frame->operation == 1) recorder->in_a_gap = 0;
  if (fits && !recorder->in_a_gap) goravesha_record_write(recorder, frame, code, answer);
  return code;
}

/* 1 where every call so far is written as a frame, and every line has left this process; else 0. It flushes the files. */
static inline int goravesha_record_complete(goravesha_recorder *recorder) {
  if (fflush(recorder->frames) != 0 || ferror(recorder->frames)) recorder->failed = 1;
  if (recorder->answers != NULL && (fflush(recorder->answers) != 0 || ferror(recorder->answers))) recorder->failed = 1;
  return !recorder->failed && recorder->written == recorder->calls;
}

/* Says in a line how much was recorded, and in two more what was not, where that is so. */
static inline void goravesha_record_report(const goravesha_recorder *recorder, FILE *to) {
  fprintf(to, "recorded: %llu of %llu calls\n", (unsigned long long)recorder->written, (unsigned long long)recorder->calls);
  if (recorder->unfit_call != 0 && recorder->unfit_argument == NULL)
    fprintf(to, "call %llu is the first without a frame: an abandon; where one is accepted, all are left out up to a make that fits\n", (unsigned long long)recorder->unfit_call);
  else if (recorder->unfit_call != 0)
    fprintf(to, "call %llu is the first that does not fit a frame: %s %lu is above %d; where such a call is accepted, all are left out up to a make that fits\n", (unsigned long long)recorder->unfit_call, recorder->unfit_argument,
            (unsigned long)recorder->unfit_number, GORAVESHA_FRAME_LARGEST);
  if (recorder->failed) fprintf(to, "a write failed: the frames or the answers are not whole\n");
}

/* The calls of goravesha.h, each made and recorded. */

GORAVESHA_CHECKED(9)
static inline uint32_t goravesha_recorded_make(goravesha_recorder *recorder, uint32_t *words, size_t count, uint32_t workers, uint32_t items, uint32_t nodes,
                                               uint32_t projects, uint32_t counter, goravesha_answer *answer) {
  const goravesha_frame frame = {1, 5, {workers, items, nodes, projects, counter}, {"workers", "items", "nodes", "projects", "counter"}};
  return goravesha_record_call(recorder, &frame, goravesha_make(words, count, workers, items, nodes, projects, counter, answer), answer);
}

GORAVESHA_CHECKED(6)
static inline uint32_t goravesha_recorded_register(goravesha_recorder *recorder, uint32_t *words, size_t count, uint32_t value, uint32_t size,
                                                   goravesha_answer *answer) {
  const goravesha_frame frame = {2, 2, {value, size}, {"value", "size"}};
  return goravesha_record_call(recorder, &frame, goravesha_register(words, count, value, size, answer), answer);
}

GORAVESHA_CHECKED(6)
static inline uint32_t goravesha_recorded_start_vread(goravesha_recorder *recorder, uint32_t *words, size_t count, uint32_t worker, uint32_t item,
                                                      goravesha_answer *answer) {
  const goravesha_frame frame = {3, 2, {worker, item}, {"worker", "item"}};
  return goravesha_record_call(recorder, &frame, goravesha_start_vread(words, count, worker, item, answer), answer);
}

GORAVESHA_CHECKED(8)
static inline uint32_t goravesha_recorded_start_vcas(goravesha_recorder *recorder, uint32_t *words, size_t count, uint32_t worker, uint32_t item,
                                                     uint32_t old_project, uint32_t new_project, goravesha_answer *answer) {
  const goravesha_frame frame = {4, 4, {worker, item, old_project, new_project}, {"worker", "item", "old project", "new project"}};
  return goravesha_record_call(recorder, &frame, goravesha_start_vcas(words, count, worker, item, old_project, new_project, answer), answer);
}

GORAVESHA_CHECKED(5)
static inline uint32_t goravesha_recorded_start_take_snapshot(goravesha_recorder *recorder, uint32_t *words, size_t count, uint32_t worker,
                                                              goravesha_answer *answer) {
  const goravesha_frame frame = {5, 1, {worker}, {"worker"}};
  return goravesha_record_call(recorder, &frame, goravesha_start_take_snapshot(words, count, worker, answer), answer);
}

GORAVESHA_CHECKED(7)
static inline uint32_t goravesha_recorded_start_read_snapshot(goravesha_recorder *recorder, uint32_t *words, size_t count, uint32_t worker, uint32_t item,
                                                              uint32_t handle, goravesha_answer *answer) {
  const goravesha_frame frame = {6, 3, {worker, item, handle}, {"worker", "item", "handle"}};
  return goravesha_record_call(recorder, &frame, goravesha_start_read_snapshot(words, count, worker, item, handle, answer), answer);
}

GORAVESHA_CHECKED(7)
static inline uint32_t goravesha_recorded_start_total(goravesha_recorder *recorder, uint32_t *words, size_t count, uint32_t worker, uint32_t project,
                                                      uint32_t handle, goravesha_answer *answer) {
  const goravesha_frame frame = {7, 3, {worker, project, handle}, {"worker", "project", "handle"}};
  return goravesha_record_call(recorder, &frame, goravesha_start_total(words, count, worker, project, handle, answer), answer);
}

GORAVESHA_CHECKED(5)
static inline uint32_t goravesha_recorded_step(goravesha_recorder *recorder, uint32_t *words, size_t count, uint32_t worker, goravesha_answer *answer) {
  const goravesha_frame frame = {8, 1, {worker}, {"worker"}};
  return goravesha_record_call(recorder, &frame, goravesha_step(words, count, worker, answer), answer);
}

/* An abandon is made and counted, but no frame stands for it. */
GORAVESHA_CHECKED(5)
static inline uint32_t goravesha_recorded_abandon(goravesha_recorder *recorder, uint32_t *words, size_t count, uint32_t worker, goravesha_answer *answer) {
  const goravesha_frame frame = {0, 0, {0}, {NULL}};
  return goravesha_record_call(recorder, &frame, goravesha_abandon(words, count, worker, answer), answer);
}

/* Steps a worker until its operation has ended or a step is refused, each step recorded: the code and the answer of the last one. */
GORAVESHA_CHECKED(5)
static inline uint32_t goravesha_recorded_finish(goravesha_recorder *recorder, uint32_t *words, size_t count, uint32_t worker, goravesha_answer *answer) {
  uint32_t code;
  do code = goravesha_recorded_step(recorder, words, count, worker, answer);
  while (code == GORAVESHA_RUNNING);
  return code;
}

#ifdef __cplusplus
}
#endif
#endif
