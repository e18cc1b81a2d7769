/* Growing byte strings and record building. Growth doubles, so long runs do
 * not copy themselves over and over. */
#include "bytes.h"

#include <stdlib.h>
#include <string.h>

#include "records.h"

static void make_room(struct bytes *bytes, size_t more)
{
    size_t wanted = bytes->length + more;
    if (wanted <= bytes->room)
        return;
    size_t room = bytes->room < 4096 ? 4096 : bytes->room;
    while (room < wanted)
        room *= 2;
    uint8_t *data = realloc(bytes->data, room);
    if (data == NULL) {
        fprintf(stderr, "tally: out of memory\n");
        exit(1);
    }
    bytes->data = data;
    bytes->room = room;
}

void bytes_free(struct bytes *bytes)
{
    free(bytes->data);
    memset(bytes, 0, sizeof *bytes);
}

void put_1(struct bytes *bytes, uint32_t value)
{
    make_room(bytes, 1);
    bytes->data[bytes->length++] = (uint8_t)(value & 0xff);
}

void put_2(struct bytes *bytes, uint32_t value)
{
    put_1(bytes, value);
    put_1(bytes, value >> 8);
}

void put_4(struct bytes *bytes, uint32_t value)
{
    put_2(bytes, value);
    put_2(bytes, value >> 16);
}

void set_4(struct bytes *bytes, size_t place, uint32_t value)
{
    for (uint32_t byte = 0; byte < 4; byte++)
        bytes->data[place + byte] = (uint8_t)(value >> (8 * byte) & 0xff);
}

void put_all(struct bytes *bytes, const void *data, size_t length)
{
    if (length == 0)
        return;
    make_room(bytes, length);
    memcpy(bytes->data + bytes->length, data, length);
    bytes->length += length;
}

void put_file(struct bytes *bytes, FILE *file)
{
    size_t got;

    do {
        make_room(bytes, BLOCK_BYTES);
        got = read_all(file, bytes->data + bytes->length, BLOCK_BYTES);
        bytes->length += got;
    } while (got == BLOCK_BYTES);
}

void put_string(struct bytes *bytes, const char *text)
{
    put_all(bytes, text, strlen(text));
}

void put_decimal(struct bytes *bytes, int64_t number)
{
    char digits[20];
    if (number < 0)
        put_1(bytes, '-');
    uint64_t size = number < 0 ? 0 - (uint64_t)number : (uint64_t)number;
    put_all(bytes, digits, put_digits(digits, size));
}

size_t record_begin(struct bytes *bytes, uint32_t kind)
{
    size_t start = bytes->length;
    put_4(bytes, 0);
    put_2(bytes, kind);
    return start;
}

void record_end(struct bytes *bytes, size_t start)
{
    set_4(bytes, start, (uint32_t)(bytes->length - start - LENGTH_BYTES));
}

static void put_literals(struct bytes *bytes, const int32_t *literals, uint32_t count)
{
    for (uint32_t place = 0; place < count; place++)
        put_4(bytes, (uint32_t)literals[place]);
}

void put_open(struct bytes *bytes, uint32_t variables)
{
    size_t start = record_begin(bytes, KIND_OPEN);
    put_4(bytes, variables);
    record_end(bytes, start);
}

void put_rule(struct bytes *bytes, const int32_t *literals, uint32_t count)
{
    size_t start = record_begin(bytes, KIND_RULE);
    put_literals(bytes, literals, count);
    record_end(bytes, start);
}

void put_wish(struct bytes *bytes, uint32_t weight, const int32_t *literals, uint32_t count)
{
    size_t start = record_begin(bytes, KIND_WISH);
    put_4(bytes, weight);
    put_literals(bytes, literals, count);
    record_end(bytes, start);
}

void put_derive(struct bytes *bytes, const int32_t *literals, uint32_t count,
                const struct hint *hints, uint32_t hint_count)
{
    size_t start = record_begin(bytes, KIND_DERIVE);
    put_4(bytes, count);
    put_literals(bytes, literals, count);
    for (uint32_t place = 0; place < hint_count; place++) {
        put_2(bytes, hints[place].family);
        put_2(bytes, hints[place].first);
        put_4(bytes, hints[place].second);
    }
    record_end(bytes, start);
}

void put_core(struct bytes *bytes, uint32_t number)
{
    size_t start = record_begin(bytes, KIND_CORE);
    put_4(bytes, number);
    record_end(bytes, start);
}
