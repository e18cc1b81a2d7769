/* Containers of texts: many older WCNF texts in one file, each with the length
 * of the room that is lent for its records, the length of the text, 4 bytes
 * little-endian each, and then the text's bytes. A container ends where fewer
 * than 8 bytes are left, and at a length above the limits below; a text that it
 * ends inside of has the bytes that are there. */
#ifndef TEXT_CONTAINER_H
#define TEXT_CONTAINER_H

#include <stdbool.h>
#include <stdint.h>

#include "bytes.h"
#include "stream.h"

enum {
    ENTRY_HEAD_BYTES = 8,
    ENTRY_TEXT_GREATEST = 20000,
    ENTRY_ROOM_GREATEST = 65536
};

struct entry {
    const uint8_t *text;
    size_t length;
    size_t room;
};

void put_entry(struct bytes *container, size_t room, const struct bytes *text);

/* The entry that starts at *place; moves *place behind it. False at the
 * container's end. */
bool next_entry(const struct bytes *container, size_t *place, struct entry *entry);

/* A line for each text: its number from 1, the three numbers of the answer,
 * and the checksum of the whole room. */
void replay_texts(const struct bytes *container, struct sink *sink);

#endif
