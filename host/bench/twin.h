/* The twin: the calls of include/goravesha.h once more, hand-written in C for speed, with the same checks. Only the benchmarks use it. */
#ifndef GORAVESHA_TWIN_H
#define GORAVESHA_TWIN_H

#include "goravesha.h"

uint32_t twin_make(uint32_t *words, size_t count, uint32_t workers, uint32_t items, uint32_t nodes, uint32_t projects, uint32_t counter,
                   goravesha_answer *answer);
uint32_t twin_register(uint32_t *words, size_t count, uint32_t value, uint32_t size, goravesha_answer *answer);
uint32_t twin_start_vread(uint32_t *words, size_t count, uint32_t worker, uint32_t item, goravesha_answer *answer);
uint32_t twin_start_vcas(uint32_t *words, size_t count, uint32_t worker, uint32_t item, uint32_t old_project, uint32_t new_project,
                         goravesha_answer *answer);
uint32_t twin_start_take_snapshot(uint32_t *words, size_t count, uint32_t worker, goravesha_answer *answer);
uint32_t twin_start_read_snapshot(uint32_t *words, size_t count, uint32_t worker, uint32_t item, uint32_t handle, goravesha_answer *answer);
uint32_t twin_start_total(uint32_t *words, size_t count, uint32_t worker, uint32_t project, uint32_t handle, goravesha_answer *answer);
uint32_t twin_step(uint32_t *words, size_t count, uint32_t worker, goravesha_answer *answer);
uint32_t twin_abandon(uint32_t *words, size_t count, uint32_t worker, goravesha_answer *answer);

#endif
