/* The writing and reading of containers of texts, and the replay of one. */
#include "text_container.h"

#include "wcnf.h"

void put_entry(struct bytes *container, size_t room, const struct bytes *text)
{
    put_4(container, (uint32_t)room);
    put_4(container, (uint32_t)text->length);
    put_all(container, text->data, text->length);
}

bool next_entry(const struct bytes *container, size_t *place, struct entry *entry)
{
    size_t left = container->length - *place;

    if (left < ENTRY_HEAD_BYTES)
        return false;
    const uint8_t *head = container->data + *place;
    size_t said = get_4(head + 4);
    entry->room = get_4(head);
    if (entry->room > ENTRY_ROOM_GREATEST || said > ENTRY_TEXT_GREATEST)
        return false;
    left -= ENTRY_HEAD_BYTES;
    entry->text = head + ENTRY_HEAD_BYTES;
    entry->length = said < left ? said : left;
    *place += ENTRY_HEAD_BYTES + entry->length;
    return true;
}

/* No byte is 0, so that a byte that the reader leaves as it was shows. */
static void fill(uint8_t *room, size_t length)
{
    for (size_t place = 0; place < length; place++)
        room[place] = (uint8_t)(place % 255 + 1);
}

/* Adler-32: the bytes summed from 1, and the sums of each step summed, both
 * modulo the greatest prime below 65,536. */
static uint32_t adler_32(const uint8_t *bytes, size_t length)
{
    uint32_t sum = 1;
    uint32_t sums = 0;

    for (size_t place = 0; place < length; place++) {
        sum = (sum + bytes[place]) % 65521;
        sums = (sums + sum) % 65521;
    }
    return sums * 65536 + sum;
}

void replay_texts(const struct bytes *container, struct sink *sink)
{
    static uint8_t room[ENTRY_ROOM_GREATEST];
    struct entry entry;
    size_t place = 0;

    for (int64_t number = 1; next_entry(container, &place, &entry); number++) {
        fill(room, entry.room);
        struct sheet_answer answer = read_sheet(entry.text, entry.length, room, entry.room);
        sink_number(sink, number);
        sink_text(sink, " ");
        sink_number(sink, answer.number);
        sink_text(sink, " ");
        sink_number(sink, (int64_t)answer.position);
        sink_text(sink, " ");
        sink_number(sink, (int64_t)answer.length);
        sink_text(sink, " ");
        sink_number(sink, adler_32(room, entry.room));
        sink_text(sink, "\n");
    }
}
