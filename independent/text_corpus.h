/* Containers of texts made by the seeded generator: the corpus of texts, and
 * texts of any seeds in a row. */
#ifndef TEXT_CORPUS_H
#define TEXT_CORPUS_H

#include <stdint.h>

#include "bytes.h"

void put_text_corpus(struct bytes *container);

/* One text for each seed from `first` on, the seed choosing the kind and the
 * length of the room. */
void put_texts(struct bytes *container, uint64_t first, uint64_t count);

#endif
