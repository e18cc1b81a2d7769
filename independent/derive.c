/* The derive step and what hints name. A derivation is checked by reverse
 * unit propagation: the new clause is taken as false and the hints, in their
 * order, must each force one literal until the last one is wholly false.
 * Everything set on the way stands on a trail and is undone from it, so the
 * work is in proportion to the literals read. */
#include "session.h"

#include <string.h>

#include "counter.h"

bool variable_is_named(const struct session *session, uint32_t variable)
{
    if (variable < FIRST_WISH_VARIABLE)
        return variable >= 1 && variable <= session->variables;
    if (variable < FIRST_COUNTER_VARIABLE)
        return variable - FIRST_WISH_VARIABLE < session->wishes;
    uint32_t counter = (variable - FIRST_COUNTER_VARIABLE) / COUNTER_STRIDE;
    uint32_t place = (variable - FIRST_COUNTER_VARIABLE) % COUNTER_STRIDE;
    return counter < session->counters &&
           place < counter_variables[counter_inputs(session, counter).count];
}

bool hint_is_named(const struct session *session, struct hint hint)
{
    switch (hint.family) {
    case FAMILY_RULE:
        return hint.first == 0 && hint.second < session->rules;
    case FAMILY_WISH:
        return hint.first == 0 && hint.second < session->wishes;
    case FAMILY_COUNTER:
        return hint.first < session->counters &&
               hint.second < counter_clauses[counter_inputs(session, hint.first).count];
    case FAMILY_DERIVED:
        return hint.first == 0 && hint.second < session->derived;
    default:
        return false;
    }
}

static uint32_t counter_hint_clause(const struct session *session, struct hint hint,
                                    int32_t literals[3])
{
    struct stretch inputs = counter_inputs(session, hint.first);
    return counter_clause(inputs.literals, inputs.count,
                          counter_variable(hint.first, 0), hint.second, literals);
}

uint32_t hint_clause(const struct session *session, struct hint hint,
                     int32_t literals[CLAUSE_LITERALS + 1])
{
    struct stretch clause;

    if (hint.family == FAMILY_COUNTER)
        return counter_hint_clause(session, hint, literals);
    if (hint.family == FAMILY_RULE)
        clause = rule_clause(session, hint.second);
    else if (hint.family == FAMILY_WISH)
        clause = wish_clause(session, hint.second);
    else
        clause = derived_clause(session, hint.second);
    memcpy(literals, clause.literals, clause.count * sizeof *literals);
    if (hint.family == FAMILY_WISH)
        literals[clause.count++] = wish_variable(hint.second);
    return clause.count;
}

/* Looks through literals for the one that is open. False as soon as one is
 * true or a second one is open: such a hint shows nothing. */
static bool look_through(const int8_t *truth, const int32_t *literals, uint32_t count,
                         int32_t *open)
{
    for (uint32_t place = 0; place < count; place++) {
        int8_t now = truth[literals[place]];
        if (now == LITERAL_FALSE)
            continue;
        if (now == LITERAL_TRUE || *open != 0)
            return false;
        *open = literals[place];
    }
    return true;
}

/* The same for the clause of one hint, read where it stands. */
static bool look_at_hint(const struct session *session, const int8_t *truth,
                         struct hint hint, int32_t *open)
{
    int32_t tail[3];
    struct stretch clause;

    switch (hint.family) {
    case FAMILY_RULE:
        clause = rule_clause(session, hint.second);
        break;
    case FAMILY_DERIVED:
        clause = derived_clause(session, hint.second);
        break;
    case FAMILY_WISH:
        clause = wish_clause(session, hint.second);
        tail[0] = wish_variable(hint.second);
        return look_through(truth, clause.literals, clause.count, open) &&
               look_through(truth, tail, 1, open);
    default:
        clause.literals = tail;
        clause.count = counter_hint_clause(session, hint, tail);
        break;
    }
    return look_through(truth, clause.literals, clause.count, open);
}

/* Goes through the hints with the clause already taken as false. */
static bool hints_show(struct session *session, const struct hint *hints, uint32_t hint_count)
{
    int8_t *truth = session_truth(session);
    int32_t trail[DERIVATION_HINTS];
    uint32_t forced = 0;
    bool shown = false;

    for (uint32_t place = 0; place < hint_count; place++) {
        int32_t open = 0;
        if (!look_at_hint(session, truth, hints[place], &open))
            break;
        if (open == 0) {
            shown = place + 1 == hint_count;
            break;
        }
        truth[open] = LITERAL_TRUE;
        truth[-open] = LITERAL_FALSE;
        trail[forced++] = open;
    }
    release(truth, trail, forced);
    return shown;
}

/* Refusals 19 and 20. */
static enum refusal check_hints(struct session *session,
                                const struct hint *hints, uint32_t hint_count)
{
    if (hint_count > DERIVATION_HINTS)
        return BAD_HINT;
    for (uint32_t place = 0; place < hint_count; place++)
        if (!hint_is_named(session, hints[place]))
            return BAD_HINT;
    return hints_show(session, hints, hint_count) ? ACCEPTED : NOT_SHOWN;
}

struct answer session_derive(struct session *session,
                             const int32_t *literals, uint32_t count,
                             const struct hint *hints, uint32_t hint_count)
{
    int8_t *truth = session_truth(session);
    uint32_t number = session->derived;

    if (count > CLAUSE_LITERALS)
        return refuse(TOO_MANY_LITERALS);
    for (uint32_t place = 0; place < count; place++)
        if (!variable_is_named(session, literal_size(literals[place])))
            return refuse(BAD_LITERAL);
    if (!take_as_false(truth, literals, count))
        return refuse(REPEATED_VARIABLE);
    enum refusal refusal = check_hints(session, hints, hint_count);
    release(truth, literals, count);
    if (refusal != ACCEPTED)
        return refuse(refusal);

    uint32_t start = session->derived_start[number];
    if (number == DERIVED_ROOM || count > DERIVED_LITERAL_ROOM - start)
        return refuse(NO_ROOM);
    memcpy(session->derived_literals + start, literals, count * sizeof *literals);
    session->derived_start[number + 1] = start + count;
    session->derived = number + 1;
    struct answer answer = { ACCEPTED, number, count };
    return answer;
}
