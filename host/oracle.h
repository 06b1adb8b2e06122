/*
 * A second implementation of document 01, with document 02's abandon, over the same words, in C: what the proved archive is compared with. It is
 * written from these documents and docs/FIELDS.md, in the reader's order of those pages, and shares nothing with the proved code but the header's
 * numbers. On what is damaged, the documents' words decide; from docs/FIELDS.md it has where the words stand and which of them a phase still keeps.
 */
#ifndef GORAVESHA_ORACLE_H
#define GORAVESHA_ORACLE_H

#include "goravesha.h"

enum kind { MAKE, REGISTER, START_VREAD, START_VCAS, START_TAKE_SNAPSHOT, START_READ_SNAPSHOT, START_TOTAL, STEP, ABANDON, KINDS };

/* A call as data: its arguments stand in the order that include/goravesha.h gives them. */
struct call {
  enum kind kind;
  uint32_t argument[5];
};

struct answer {
  uint32_t code;
  uint64_t value, steps;
};

extern const char *const kind_name[KINDS];

/*
 * The same call on the proved archive (archive.c), with the answer's four numbers as the archive wrote them, and on the oracle (oracle.c
 * and oracle_words.c, which need no archive). The oracle takes any arguments on any words of any count, and touches no word but the first `count`.
 */
uint32_t archive_call(const struct call *call, uint32_t *words, size_t count, goravesha_answer *answer);
struct answer oracle_call(const struct call *call, uint32_t *words, size_t count);

/*
 * What docs/FIELDS.md's table of phases says of a phase. `kept` and `node_words` say what a step there uses (oracle_words.h names their numbers);
 * it goes on at phase `goes_on`, or at `otherwise` where line 20 found a valid stamp or line 46 failed. Where a total goes on after an item
 * depends on its place and stands in no column.
 */
struct phase_row {
  unsigned char operation, line, may_answer, kept, node_words, goes_on, otherwise;
};
enum { PHASES = 36 };
extern const struct phase_row phase_rows[PHASES];

#endif
