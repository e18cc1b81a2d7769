/* The writing and reading of containers, and the replay of one. */
#include "container.h"

#include "records.h"

size_t run_bytes_begin(struct bytes *container)
{
    size_t start = container->length;
    put_4(container, 0);
    return start;
}

void run_bytes_end(struct bytes *container, size_t start)
{
    set_4(container, start, (uint32_t)(container->length - start - LENGTH_BYTES));
}

bool next_run(const struct bytes *container, size_t *place,
              const uint8_t **run, size_t *length)
{
    size_t left = container->length - *place;

    if (left < LENGTH_BYTES)
        return false;
    size_t said = get_4(container->data + *place);
    left -= LENGTH_BYTES;
    *run = container->data + *place + LENGTH_BYTES;
    *length = said < left ? said : left;
    *place += LENGTH_BYTES + *length;
    return true;
}

void replay(const struct bytes *container, struct sink *sink)
{
    static struct source source;
    const uint8_t *run;
    size_t length;
    size_t place = 0;

    for (int64_t number = 1; next_run(container, &place, &run, &length); number++) {
        sink_text(sink, "run ");
        sink_number(sink, number);
        sink_text(sink, "\n");
        source_begin_bytes(&source, run, length);
        run_records(&source, sink);
    }
}
