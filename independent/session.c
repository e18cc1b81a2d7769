/* The session's steps except derive: opening, taking rules and wishes, the
 * core step and the judging of an arrangement. */
#include "session.h"

#include <string.h>

#include "counter.h"

struct answer refuse(enum refusal number)
{
    struct answer answer = { (uint32_t)number, 0, 0 };
    return answer;
}

static struct answer accept(uint32_t first, uint32_t second)
{
    struct answer answer = { ACCEPTED, first, second };
    return answer;
}

void session_clear(struct session *session)
{
    memset(session, 0, sizeof *session);
}

int8_t *session_truth(struct session *session)
{
    return session->truth_room + VARIABLE_END;
}

void release(int8_t *truth, const int32_t *literals, uint32_t count)
{
    for (uint32_t place = 0; place < count; place++) {
        truth[literals[place]] = LITERAL_OPEN;
        truth[-literals[place]] = LITERAL_OPEN;
    }
}

/* Marks every literal false; a variable met twice undoes the marks and says
 * so. One pass serves both the look for repeats and the start of derive. */
bool take_as_false(int8_t *truth, const int32_t *literals, uint32_t count)
{
    for (uint32_t place = 0; place < count; place++) {
        if (truth[literals[place]] != LITERAL_OPEN) {
            release(truth, literals, place);
            return false;
        }
        truth[literals[place]] = LITERAL_FALSE;
        truth[-literals[place]] = LITERAL_TRUE;
    }
    return true;
}

/* Refusals 16 to 18 for the clause of a rule or a wish. */
static enum refusal check_problem_clause(struct session *session,
                                         const int32_t *literals, uint32_t count)
{
    int8_t *truth = session_truth(session);

    if (count > CLAUSE_LITERALS)
        return TOO_MANY_LITERALS;
    for (uint32_t place = 0; place < count; place++) {
        uint32_t size = literal_size(literals[place]);
        if (size < 1 || size > session->variables)
            return BAD_LITERAL;
    }
    if (!take_as_false(truth, literals, count))
        return REPEATED_VARIABLE;
    release(truth, literals, count);
    return ACCEPTED;
}

struct answer session_open(struct session *session, uint32_t variables)
{
    if (variables < 1 || variables > PROBLEM_VARIABLES)
        return refuse(BAD_VARIABLE_COUNT);
    session->opened = true;
    session->variables = variables;
    return accept(variables, 0);
}

struct answer session_rule(struct session *session, const int32_t *literals, uint32_t count)
{
    enum refusal refusal = check_problem_clause(session, literals, count);
    uint32_t number = session->rules;

    if (refusal != ACCEPTED)
        return refuse(refusal);
    uint32_t start = session->rule_start[number];
    if (number == RULE_ROOM || count > RULE_LITERAL_ROOM - start)
        return refuse(NO_ROOM);
    memcpy(session->rule_literals + start, literals, count * sizeof *literals);
    session->rule_start[number + 1] = start + count;
    session->rules = number + 1;
    return accept(number, 0);
}

struct answer session_wish(struct session *session, uint32_t weight,
                           const int32_t *literals, uint32_t count)
{
    uint32_t number = session->wishes;

    if (weight < 1 || weight > GREATEST_WEIGHT)
        return refuse(BAD_WEIGHT);
    enum refusal refusal = check_problem_clause(session, literals, count);
    if (refusal != ACCEPTED)
        return refuse(refusal);
    uint32_t start = session->wish_start[number];
    if (number == WISH_ROOM || count > WISH_LITERAL_ROOM - start)
        return refuse(NO_ROOM);
    memcpy(session->wish_literals + start, literals, count * sizeof *literals);
    session->wish_start[number + 1] = start + count;
    session->wish_weight[number] = weight;
    session->remaining[wish_variable(number)] = weight;
    session->wishes = number + 1;
    return accept(number, (uint32_t)wish_variable(number));
}

/* The least remaining weight of the members, 0 when they form no core. */
static uint32_t core_weight(const struct session *session, struct stretch members)
{
    uint32_t least = 0;

    for (uint32_t place = 0; place < members.count; place++) {
        int32_t member = members.literals[place];
        uint32_t weight = member < 0 ? 0 : session->remaining[member];
        if (weight == 0)
            return 0;
        if (place == 0 || weight < least)
            least = weight;
    }
    return least;
}

struct answer session_core(struct session *session, uint32_t number)
{
    if (number >= session->derived)
        return refuse(NO_SUCH_DERIVED);
    struct stretch members = derived_clause(session, number);
    uint32_t weight = core_weight(session, members);
    if (weight == 0)
        return refuse(NOT_A_CORE);
    if (members.count >= 2 && session->counters == COUNTER_ROOM)
        return refuse(NO_ROOM);

    for (uint32_t place = 0; place < members.count; place++)
        session->remaining[members.literals[place]] -= weight;
    session->bound += weight;
    if (members.count >= 2) {
        uint32_t counter = session->counters;
        session->counter_source[counter] = number;
        session->counters = counter + 1;
        /* Root output 1 stays without weight: the bound has paid for it. */
        for (uint32_t output = 2; output <= members.count; output++)
            session->remaining[counter_variable(counter, output - 1)] = weight;
    }
    return accept(session->bound, weight);
}

static bool clause_holds(const uint8_t *arrangement, struct stretch clause)
{
    for (uint32_t place = 0; place < clause.count; place++) {
        uint32_t bit = literal_size(clause.literals[place]) - 1;
        bool set = (arrangement[bit / 8] >> (bit % 8)) & 1;
        if (set == (clause.literals[place] > 0))
            return true;
    }
    return false;
}

struct answer session_judge(const struct session *session, const uint8_t *arrangement)
{
    uint32_t cost = 0;

    for (uint32_t rule = 0; rule < session->rules; rule++) {
        if (!clause_holds(arrangement, rule_clause(session, rule))) {
            struct answer broken = { RULE_BROKEN, rule, 0 };
            return broken;
        }
    }
    for (uint32_t wish = 0; wish < session->wishes; wish++)
        if (!clause_holds(arrangement, wish_clause(session, wish)))
            cost += session->wish_weight[wish];
    struct answer answer = { cost == session->bound ? BEST : COUNTED, cost, session->bound };
    return answer;
}
