/* What the corpus of texts holds: every edge, the sound ones in rooms of
 * several lengths; every byte in four places; and texts of the other kinds in
 * rooms drawn by seed. The seeds are fixed, so the bytes are the same
 * everywhere. */
#include "text_corpus.h"

#include "chance.h"
#include "generate.h"
#include "text_container.h"
#include "text_edges.h"
#include "wcnf.h"

static const struct {
    const char *kind;
    uint64_t first_seed;
    uint32_t count;
} parts[] = {
    { "bytes", 0, 1024 },
    { "sound", 1, 60 },
    { "words", 101, 50 },
    { "limits", 201, 40 },
    { "several", 301, 40 },
    { "counts", 401, 30 },
    { "length", 501, 16 },
    { "damaged", 601, 100 },
    { "soup", 701, 50 },
    { "noise", 801, 40 }
};

/* Up to this length a sound edge stands in the corpus with four rooms. */
enum { SHORT_TEXT = 1000 };

static struct sheet_answer read_amply(const struct bytes *text)
{
    static uint8_t room[SHEET_RECORD_ROOM];
    return read_sheet(text->data, text->length, room, sizeof room);
}

/* Room for the records of any text of this length, with zeros behind them. */
static size_t ample_room(const struct bytes *text)
{
    size_t room = 4 * text->length + 16;
    return room < ENTRY_ROOM_GREATEST ? room : ENTRY_ROOM_GREATEST;
}

/* Around the length that the records need, with a text that is refused around
 * a length where they may not have all fitted. */
static size_t draw_room(struct chance *chance, const struct bytes *text)
{
    struct sheet_answer answer = read_amply(text);
    uint32_t needed = (uint32_t)answer.length;

    if (answer.number != ACCEPTED)
        needed = draw_below(chance, (uint32_t)text->length + 1);
    switch (draw_below(chance, 8)) {
    case 0: return 0;
    case 1: return needed > 0 ? needed - 1 : 1;
    case 2: return draw_below(chance, needed + 1);
    case 3: return needed + draw_below(chance, 100);
    case 4:
    case 5: return needed;
    default: return ample_room(text);
    }
}

static void put_edge(struct bytes *container, uint32_t number)
{
    struct bytes text = { NULL, 0, 0 };

    write_edge(number, &text);
    struct sheet_answer answer = read_amply(&text);
    put_entry(container, ample_room(&text), &text);
    if (answer.number == ACCEPTED && text.length <= SHORT_TEXT) {
        put_entry(container, answer.length, &text);
        put_entry(container, answer.length - 1, &text);
        put_entry(container, 0, &text);
    }
    bytes_free(&text);
}

static void put_generated(struct bytes *container, uint64_t seed, const char *kind)
{
    struct chance chance = { seed ^ UINT64_C(0x5555555555555555) };
    struct bytes text = { NULL, 0, 0 };

    generate_text(seed, kind, &text);
    put_entry(container, draw_room(&chance, &text), &text);
    bytes_free(&text);
}

void put_text_corpus(struct bytes *container)
{
    for (uint32_t number = 0; number < edge_count(); number++)
        put_edge(container, number);
    for (size_t part = 0; part < sizeof parts / sizeof *parts; part++)
        for (uint32_t place = 0; place < parts[part].count; place++)
            put_generated(container, parts[part].first_seed + place, parts[part].kind);
}

void put_texts(struct bytes *container, uint64_t first, uint64_t count)
{
    for (uint64_t place = 0; place < count; place++)
        put_generated(container, first + place, NULL);
}
