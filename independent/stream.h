/* Standard input and output in large blocks. A source cuts its bytes, those
 * of a file or bytes that stand in memory, into records without copying them;
 * a sink gathers what is written and hands it on when it is full. Neither
 * asks for memory. */
#ifndef STREAM_H
#define STREAM_H

#include <stdbool.h>
#include <stddef.h>
#include <stdint.h>
#include <stdio.h>

#include "sizes.h"

enum { BLOCK_BYTES = 65536 };

struct source {
    FILE *file;
    bool at_end;
    /* The bytes at hand stand here from start to end: in the block below, or
     * where the caller keeps them. */
    const uint8_t *data;
    size_t start;
    size_t end;
    uint8_t block[BLOCK_BYTES + FRAMED_GREATEST];
};

enum frame { FRAME_RECORD, FRAME_END, FRAME_BROKEN };

void source_begin(struct source *source, FILE *file);
void source_begin_bytes(struct source *source, const uint8_t *bytes, size_t length);

/* The next record: its bytes behind the length (kind and payload), valid
 * until the next call. FRAME_END exactly behind the last record,
 * FRAME_BROKEN for a bad length or an input that ends inside a record; the
 * bytes of the broken record are then still there for source_rest. */
enum frame source_next(struct source *source, const uint8_t **record, uint32_t *length);

/* Bytes not yet handed out, as many as are at hand (0 at the end). */
size_t source_rest(struct source *source, const uint8_t **bytes);

struct sink {
    FILE *file;
    size_t used;
    char data[BLOCK_BYTES];
};

void sink_begin(struct sink *sink, FILE *file);
/* Room for `length` more bytes (far below a block), to be written in place
 * and then counted by adding to `used`. */
char *sink_room(struct sink *sink, size_t length);
void sink_bytes(struct sink *sink, const void *bytes, size_t length);
void sink_text(struct sink *sink, const char *text);
void sink_number(struct sink *sink, int64_t number);
void sink_flush(struct sink *sink);

/* Writes the digits of a number and returns how many; at most 20. */
size_t put_digits(char *place, uint64_t number);

/* Little-endian numbers; here in full, since every literal passes by. */
static inline uint32_t get_2(const uint8_t *bytes)
{
    return (uint32_t)bytes[0] | (uint32_t)bytes[1] << 8;
}

static inline uint32_t get_4(const uint8_t *bytes)
{
    return (uint32_t)bytes[0] | (uint32_t)bytes[1] << 8 |
           (uint32_t)bytes[2] << 16 | (uint32_t)bytes[3] << 24;
}

/* All of a file up to `room` bytes; returns the count. */
size_t read_all(FILE *file, uint8_t *bytes, size_t room);

#endif
