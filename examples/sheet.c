/* A sheet as older WCNF text: it is read to records, and each record is
 * answered in its turn. */
#include <stdio.h>
#include <string.h>

#include "tally.h"

static struct tally_session session; /* all zeros: a fresh session */
static uint8_t records[40960];       /* enough for every text */

static const char sheet[] =
    "c three rules and three wishes\n"
    "p wcnf 3 6 100\n"
    "100 1 2 0\n100 2 3 0\n100 1 3 0\n"
    "3 -1 0\n2 -2 0\n4 -3 0\n";

static size_t length_at(size_t at)
{
    return records[at] | (size_t)records[at + 1] << 8 | (size_t)records[at + 2] << 16 |
           (size_t)records[at + 3] << 24;
}

int main(void)
{
    struct tally_text read = tally_read_text((const uint8_t *)sheet, strlen(sheet),
                                             records, sizeof records);
    unsigned place = 0;

    if (read.number != 0) {
        printf("refused (%u) at byte %zu\n", (unsigned)read.number, read.position);
        return 1;
    }
    for (size_t at = 0; at < read.length; at += 4 + length_at(at)) {
        uint32_t kind = records[at + 4] | (uint32_t)records[at + 5] << 8;
        struct tally_reply reply =
            tally_record(&session, kind, records + at + 6, length_at(at) - 2);
        printf("%u %u %u %u %u\n", ++place, (unsigned)kind, (unsigned)reply.number,
               (unsigned)reply.first, (unsigned)reply.second);
    }
    return 0;
}
