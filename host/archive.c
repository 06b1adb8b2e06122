/* A call as data, made on the proved archive. It stands apart from oracle.c so that the oracle links without the archive. */
#include "oracle.h"

uint32_t archive_call(const struct call *call, uint32_t *words, size_t count, goravesha_answer *answer) {
  const uint32_t *argument = call->argument;
  switch (call->kind) {
  case MAKE:
    return goravesha_make(words, count, argument[0], argument[1], argument[2], argument[3], argument[4], answer);
  case REGISTER:
    return goravesha_register(words, count, argument[0], argument[1], answer);
  case START_VREAD:
    return goravesha_start_vread(words, count, argument[0], argument[1], answer);
  case START_VCAS:
    return goravesha_start_vcas(words, count, argument[0], argument[1], argument[2], argument[3], answer);
  case START_TAKE_SNAPSHOT:
    return goravesha_start_take_snapshot(words, count, argument[0], answer);
  case START_READ_SNAPSHOT:
    return goravesha_start_read_snapshot(words, count, argument[0], argument[1], argument[2], answer);
  case START_TOTAL:
    return goravesha_start_total(words, count, argument[0], argument[1], argument[2], answer);
  case STEP:
    return goravesha_step(words, count, argument[0], answer);
  default: /* ABANDON: there is no other kind */
    return goravesha_abandon(words, count, argument[0], answer);
  }
}
