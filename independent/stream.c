/* Block-wise reading and writing. When fewer bytes are at hand than the
 * record in front needs, what is left is moved to the start of the buffer
 * and one more block is read behind it. */
#include "stream.h"

#include <stdlib.h>
#include <string.h>

void source_begin(struct source *source, FILE *file)
{
    source->file = file;
    source->at_end = false;
    source->data = source->block;
    source->start = 0;
    source->end = 0;
    /* The source has its own buffer; a second one would only copy. */
    setvbuf(file, NULL, _IONBF, 0);
}

void source_begin_bytes(struct source *source, const uint8_t *bytes, size_t length)
{
    source->file = NULL;
    source->at_end = true;
    source->data = bytes;
    source->start = 0;
    source->end = length;
}

static void fail_reading(void)
{
    fprintf(stderr, "tally: the input cannot be read\n");
    exit(1);
}

/* Makes `wanted` bytes available if the input still has them. */
static bool source_has(struct source *source, size_t wanted)
{
    while (source->end - source->start < wanted && !source->at_end) {
        memmove(source->block, source->block + source->start, source->end - source->start);
        source->end -= source->start;
        source->start = 0;
        size_t got = fread(source->block + source->end, 1, BLOCK_BYTES, source->file);
        if (got < BLOCK_BYTES) {
            if (ferror(source->file))
                fail_reading();
            source->at_end = true;
        }
        source->end += got;
    }
    return source->end - source->start >= wanted;
}

enum frame source_next(struct source *source, const uint8_t **record, uint32_t *length)
{
    if (!source_has(source, LENGTH_BYTES))
        return source->end == source->start ? FRAME_END : FRAME_BROKEN;
    uint32_t said = get_4(source->data + source->start);
    if (said < RECORD_LEAST || said > RECORD_GREATEST)
        return FRAME_BROKEN;
    if (!source_has(source, LENGTH_BYTES + (size_t)said))
        return FRAME_BROKEN;
    *record = source->data + source->start + LENGTH_BYTES;
    *length = said;
    source->start += LENGTH_BYTES + (size_t)said;
    return FRAME_RECORD;
}

size_t source_rest(struct source *source, const uint8_t **bytes)
{
    source_has(source, 1);
    size_t count = source->end - source->start;
    *bytes = source->data + source->start;
    source->start = source->end;
    return count;
}

void sink_begin(struct sink *sink, FILE *file)
{
    sink->file = file;
    sink->used = 0;
    setvbuf(file, NULL, _IONBF, 0);
}

static void write_out(FILE *file, const void *bytes, size_t length)
{
    if (length > 0 && fwrite(bytes, 1, length, file) != length) {
        fprintf(stderr, "tally: the output cannot be written\n");
        exit(1);
    }
}

void sink_flush(struct sink *sink)
{
    write_out(sink->file, sink->data, sink->used);
    sink->used = 0;
}

char *sink_room(struct sink *sink, size_t length)
{
    if (BLOCK_BYTES - sink->used < length)
        sink_flush(sink);
    return sink->data + sink->used;
}

void sink_bytes(struct sink *sink, const void *bytes, size_t length)
{
    if (length >= BLOCK_BYTES) {
        sink_flush(sink);
        write_out(sink->file, bytes, length);
        return;
    }
    if (length > 0)
        memcpy(sink_room(sink, length), bytes, length);
    sink->used += length;
}

void sink_text(struct sink *sink, const char *text)
{
    sink_bytes(sink, text, strlen(text));
}

void sink_number(struct sink *sink, int64_t number)
{
    char *room = sink_room(sink, 21);
    size_t count = 0;
    if (number < 0)
        room[count++] = '-';
    count += put_digits(room + count, number < 0 ? 0 - (uint64_t)number : (uint64_t)number);
    sink->used += count;
}

size_t put_digits(char *place, uint64_t number)
{
    char digits[20];
    size_t count = 0;
    do {
        digits[count++] = (char)('0' + number % 10);
        number /= 10;
    } while (number > 0);
    for (size_t at = 0; at < count; at++)
        place[at] = digits[count - 1 - at];
    return count;
}

size_t read_all(FILE *file, uint8_t *bytes, size_t room)
{
    size_t count = fread(bytes, 1, room, file);
    if (ferror(file))
        fail_reading();
    return count;
}
