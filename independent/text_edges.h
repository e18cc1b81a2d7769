/* A fixed list of small texts, one for every edge of the older WCNF form. */
#ifndef TEXT_EDGES_H
#define TEXT_EDGES_H

#include "bytes.h"

uint32_t edge_count(void);
void write_edge(uint32_t number, struct bytes *out);

#endif
