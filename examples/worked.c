/* The worked run of the description, with the library: each record is built
 * here, answered, and printed as the runner prints it. */
#include <stdio.h>

#include "tally.h"

static struct tally_session session; /* all zeros: a fresh session */
static unsigned place;

static void answer(uint32_t kind, const void *payload, size_t length)
{
    struct tally_reply reply = tally_record(&session, kind, payload, length);

    place++;
    printf("%u %u %u %u %u\n", place, (unsigned)kind, (unsigned)reply.number,
           (unsigned)reply.first, (unsigned)reply.second);
}

/* A record whose payload is numbers of 4 bytes. */
#define ANSWER(kind, ...) \
    answer(kind, (const int32_t[]){ __VA_ARGS__ }, sizeof (const int32_t[]){ __VA_ARGS__ })

static void judge(uint8_t arrangement)
{
    answer(TALLY_JUDGE, &arrangement, 1);
}

static void rules_and_wishes(void)
{
    ANSWER(TALLY_OPEN, 3);
    ANSWER(TALLY_RULE, 1, 2);
    ANSWER(TALLY_RULE, 2, 3);
    ANSWER(TALLY_RULE, 1, 3);
    ANSWER(TALLY_WISH, 3, -1);
    ANSWER(TALLY_WISH, 2, -2);
    ANSWER(TALLY_WISH, 4, -3);
}

static void conflicts(void)
{
    ANSWER(TALLY_DERIVE, 2, 2001, 2002, TALLY_BY_WISH(0), TALLY_BY_WISH(1), TALLY_BY_RULE(0));
    ANSWER(TALLY_CORE, 0);
    ANSWER(TALLY_DERIVE, 2, 2001, 2003, TALLY_BY_WISH(0), TALLY_BY_WISH(2), TALLY_BY_RULE(2));
    ANSWER(TALLY_CORE, 1);
    ANSWER(TALLY_DERIVE, 2, 4002, 2003, TALLY_BY_WISH(2), TALLY_BY_RULE(1), TALLY_BY_RULE(2),
           TALLY_BY_WISH(0), TALLY_BY_WISH(1), TALLY_BY_COUNTER(0, 2));
    ANSWER(TALLY_CORE, 2);
    judge(3);
}

static void a_late_wish(void)
{
    ANSWER(TALLY_WISH, 5, 3);
    judge(3);
    ANSWER(TALLY_DERIVE, 2, 2003, 2004, TALLY_BY_WISH(2), TALLY_BY_WISH(3));
    ANSWER(TALLY_CORE, 3);
    judge(6);
    ANSWER(TALLY_CORE, 0);
    judge(1);
}

int main(void)
{
    rules_and_wishes();
    conflicts();
    a_late_wish();
    return 0;
}
