/* Containers: many runs in one file, each a 4-byte little-endian length and
 * then as many bytes, which are the input of one run. A container ends where
 * fewer than 4 bytes are left for a length; a run that it ends inside of has
 * the bytes that are there. */
#ifndef CONTAINER_H
#define CONTAINER_H

#include <stdbool.h>
#include <stdint.h>

#include "bytes.h"
#include "stream.h"

/* A run is begun, its bytes are put, and then it is ended, which writes the
 * length in front of it. */
size_t run_bytes_begin(struct bytes *container);
void run_bytes_end(struct bytes *container, size_t start);

/* The run whose length stands at *place; moves *place behind it. False at
 * the container's end. */
bool next_run(const struct bytes *container, size_t *place,
              const uint8_t **run, size_t *length);

/* Each run on its own: a heading and its answer lines. */
void replay(const struct bytes *container, struct sink *sink);

#endif
