/* A growing string of bytes and the building of records in it, for the parts
 * that write records: the assembler and the generators. */
#ifndef BYTES_H
#define BYTES_H

#include <stddef.h>
#include <stdint.h>
#include <stdio.h>

#include "session.h"

struct bytes {
    uint8_t *data;
    size_t length;
    size_t room;
};

void bytes_free(struct bytes *bytes);
void put_1(struct bytes *bytes, uint32_t value);
void put_2(struct bytes *bytes, uint32_t value);
void put_4(struct bytes *bytes, uint32_t value);
/* Writes over 4 bytes that have been put before. */
void set_4(struct bytes *bytes, size_t place, uint32_t value);
void put_all(struct bytes *bytes, const void *data, size_t length);
/* All that a file still has. */
void put_file(struct bytes *bytes, FILE *file);
void put_string(struct bytes *bytes, const char *text);
void put_decimal(struct bytes *bytes, int64_t number);

/* A record is begun with its kind, its payload is put, and then it is ended,
 * which writes the length in front of it. */
size_t record_begin(struct bytes *bytes, uint32_t kind);
void record_end(struct bytes *bytes, size_t start);

void put_open(struct bytes *bytes, uint32_t variables);
void put_rule(struct bytes *bytes, const int32_t *literals, uint32_t count);
void put_wish(struct bytes *bytes, uint32_t weight, const int32_t *literals, uint32_t count);
void put_derive(struct bytes *bytes, const int32_t *literals, uint32_t count,
                const struct hint *hints, uint32_t hint_count);
void put_core(struct bytes *bytes, uint32_t number);

#endif
