/* What the corpus holds: the worked run whole and cut short, an empty run, and
 * then runs of every kind, the small kinds often and the large ones once or
 * twice. The seeds are fixed, so the bytes are the same everywhere. */
#include "corpus.h"

#include "container.h"
#include "generate.h"

static const struct {
    const char *kind;
    uint64_t first_seed;
    uint32_t count;
} parts[] = {
    { "honest", 1, 36 },
    { "cover", 101, 20 },
    { "rack", 201, 16 },
    { "deep", 106, 8 },
    { "wide", 401, 6 },
    { "unsatisfiable", 501, 16 },
    { "twisted", 601, 20 },
    /* Of 2 and 3 inputs, twice of 2, of 64 and 33, and of 63. */
    { "counters", 16, 2 },
    { "counters", 19, 2 },
    { "counters", 40, 2 },
    { "counters", 3, 1 },
    { "forest", 108, 2 },
    { "rule-room", 1, 1 },
    { "rule-literal-room", 1, 1 },
    { "wish-room", 1, 2 },
    { "wish-literal-room", 1, 1 },
    { "derived-room", 1, 1 },
    { "derived-literal-room", 1, 1 },
    { "counter-room", 1, 2 },
    { "greatest-bound", 1, 1 },
    { "long-derivations", 1, 1 },
    { "refusals", 801, 24 },
    { "several", 901, 10 },
    { "tiny", 1001, 24 },
    { "mixed", 1101, 16 },
    { "damaged", 1204, 20 },
    { "scrambled", 101, 6 },
    { "noise", 1401, 8 }
};

static void put_generated(struct bytes *container, uint64_t seed, const char *kind)
{
    size_t start = run_bytes_begin(container);
    generate_records(seed, kind, container);
    run_bytes_end(container, start);
}

static void put_start(struct bytes *container, const struct bytes *run, size_t length)
{
    size_t start = run_bytes_begin(container);
    put_all(container, run->data, length < run->length ? length : run->length);
    run_bytes_end(container, start);
}

/* Where the first record behind half of a run starts. */
static size_t middle_record(const struct bytes *run)
{
    static struct source source;
    const uint8_t *record;
    uint32_t length;

    source_begin_bytes(&source, run->data, run->length);
    while (source.start < run->length / 2 &&
           source_next(&source, &record, &length) == FRAME_RECORD)
        ;
    return source.start;
}

void put_corpus(struct bytes *container, const struct bytes *worked)
{
    size_t middle = middle_record(worked);

    put_start(container, worked, worked->length);
    /* Cut behind a record, behind 1, 2 and 3 bytes of a length, behind the
     * length, inside the kind and behind it, and before the very last byte. */
    for (size_t more = 0; more <= LENGTH_BYTES + 2; more++)
        put_start(container, worked, middle + more);
    put_start(container, worked, worked->length - 1);
    put_start(container, worked, 0);
    for (size_t part = 0; part < sizeof parts / sizeof *parts; part++)
        for (uint32_t place = 0; place < parts[part].count; place++)
            put_generated(container, parts[part].first_seed + place, parts[part].kind);
}

void put_runs(struct bytes *container, uint64_t first, uint64_t count)
{
    for (uint64_t place = 0; place < count; place++)
        put_generated(container, first + place, NULL);
}
