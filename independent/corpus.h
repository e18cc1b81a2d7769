/* Containers made by the seeded generator: the project's corpus, and runs of
 * any seeds in a row. */
#ifndef CORPUS_H
#define CORPUS_H

#include <stdint.h>

#include "bytes.h"

/* The corpus; the worked run stands in it whole and cut short. */
void put_corpus(struct bytes *container, const struct bytes *worked);

/* One run for each seed from `first` on, the seed choosing the kind. */
void put_runs(struct bytes *container, uint64_t first, uint64_t count);

#endif
