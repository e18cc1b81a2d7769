/* Telling a run in words: every answer line with its meaning beside it. */
#ifndef EXPLAIN_H
#define EXPLAIN_H

#include <stdint.h>

#include "records.h"

/* Runs the records of a source, as run_records does, and says beside each
 * answer line what it means. */
void explain_records(struct source *source, struct sink *sink);

/* What a refusal number of the older text means. */
const char *sheet_fault_words(uint32_t number);

#endif
