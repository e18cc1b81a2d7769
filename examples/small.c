/* Two rules that leave a wish no chance: the SAT program shows that they do,
 * the bound rises by the wish's weight, and an arrangement is judged. */
#include <stdio.h>

#include "tally.h"

static struct tally_session session; /* all zeros: a fresh session */

int main(void)
{
    const int32_t variables[] = { 2 };
    const int32_t either[] = { 1, 2 }, not_second[] = { -2 };
    const int32_t not_first[] = { 3, -1 }; /* its weight, then its literals */
    const int32_t broken[] = { 1, TALLY_WISH_VARIABLE(0),
                               TALLY_BY_WISH(0), TALLY_BY_RULE(1), TALLY_BY_RULE(0) };
    const int32_t number[] = { 0 };
    const uint8_t first_alone[] = { 1 };
    struct tally_reply reply;

    tally_record(&session, TALLY_OPEN, variables, sizeof variables);
    tally_record(&session, TALLY_RULE, either, sizeof either);
    tally_record(&session, TALLY_RULE, not_second, sizeof not_second);
    tally_record(&session, TALLY_WISH, not_first, sizeof not_first);
    tally_record(&session, TALLY_DERIVE, broken, sizeof broken);
    tally_record(&session, TALLY_CORE, number, sizeof number);
    reply = tally_record(&session, TALLY_JUDGE, first_alone, sizeof first_alone);
    printf("%s: cost %u, bound %u\n", reply.number == 1 ? "best" : "not best",
           (unsigned)reply.first, (unsigned)reply.second);
    return 0;
}
