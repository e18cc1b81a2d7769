/* A session: the rules, wishes, derived clauses and counters accepted so
 * far, the remaining weights and the bound. Each step below takes arguments
 * already cut out of a record and gives back a refusal number (0 when
 * accepted) and two values; a refused step changes nothing. The refusals for
 * form and moment (10 to 13) belong to the records, not to the session. */
#ifndef SESSION_H
#define SESSION_H

#include <stdbool.h>
#include <stdint.h>

#include "sizes.h"

enum family {
    FAMILY_RULE = 1,
    FAMILY_WISH = 2,
    FAMILY_COUNTER = 3,
    FAMILY_DERIVED = 4
};

struct hint {
    uint16_t family;
    uint16_t first;
    uint32_t second;
};

struct answer {
    uint32_t number;
    uint32_t first;
    uint32_t second;
};

struct session {
    bool opened;
    uint32_t variables;
    uint32_t bound;
    uint32_t rules;
    uint32_t wishes;
    uint32_t derived;
    uint32_t counters;

    /* Clause k of a family is the stretch from start[k] to start[k + 1]. */
    uint32_t rule_start[RULE_ROOM + 1];
    uint32_t wish_start[WISH_ROOM + 1];
    uint32_t derived_start[DERIVED_ROOM + 1];
    int32_t rule_literals[RULE_LITERAL_ROOM];
    int32_t wish_literals[WISH_LITERAL_ROOM];
    int32_t derived_literals[DERIVED_LITERAL_ROOM];

    uint32_t wish_weight[WISH_ROOM];
    /* A counter's inputs are the literals of the derived clause it came from. */
    uint32_t counter_source[COUNTER_ROOM];
    uint32_t remaining[VARIABLE_END];

    /* Work room: the present truth of a literal, reached through
     * session_truth so that negative literals index it too. All zeros
     * between steps. */
    int8_t truth_room[2 * VARIABLE_END];
};

/* The answers of judge that are no refusals. */
enum { COUNTED = 0, BEST = 1 };

void session_clear(struct session *session);

struct answer session_open(struct session *session, uint32_t variables);
struct answer session_rule(struct session *session, const int32_t *literals, uint32_t count);
struct answer session_wish(struct session *session, uint32_t weight,
                           const int32_t *literals, uint32_t count);
struct answer session_derive(struct session *session,
                             const int32_t *literals, uint32_t count,
                             const struct hint *hints, uint32_t hint_count);
struct answer session_core(struct session *session, uint32_t number);
struct answer session_judge(const struct session *session, const uint8_t *arrangement);

/* The look-ups stand here in full, since every hint passes through them. */

/* A clause's stretch and its length; for a wish without its own variable. */
struct stretch {
    const int32_t *literals;
    uint32_t count;
};

static inline struct stretch cut_stretch(const int32_t *room, const uint32_t *start,
                                         uint32_t number)
{
    struct stretch stretch = { room + start[number], start[number + 1] - start[number] };
    return stretch;
}

static inline struct stretch rule_clause(const struct session *session, uint32_t number)
{
    return cut_stretch(session->rule_literals, session->rule_start, number);
}

static inline struct stretch wish_clause(const struct session *session, uint32_t number)
{
    return cut_stretch(session->wish_literals, session->wish_start, number);
}

static inline struct stretch derived_clause(const struct session *session, uint32_t number)
{
    return cut_stretch(session->derived_literals, session->derived_start, number);
}

static inline struct stretch counter_inputs(const struct session *session, uint32_t counter)
{
    return derived_clause(session, session->counter_source[counter]);
}

static inline int32_t wish_variable(uint32_t wish)
{
    return (int32_t)(FIRST_WISH_VARIABLE + wish);
}

static inline int32_t counter_variable(uint32_t counter, uint32_t place)
{
    return (int32_t)(FIRST_COUNTER_VARIABLE + COUNTER_STRIDE * counter + place);
}

/* The size of a literal; every 32-bit literal has one. */
static inline uint32_t literal_size(int32_t literal)
{
    return literal < 0 ? 0u - (uint32_t)literal : (uint32_t)literal;
}

/* Whether a variable, or a hint, names something in the present session. */
bool variable_is_named(const struct session *session, uint32_t variable);
bool hint_is_named(const struct session *session, struct hint hint);

/* All the literals of the clause a hint names, a wish's own variable
 * included; returns how many. The hint must name a clause. */
uint32_t hint_clause(const struct session *session, struct hint hint,
                     int32_t literals[CLAUSE_LITERALS + 1]);

/* The truth room seen from its middle, and the two ways to mark it. Taking a
 * clause as false fails, with nothing marked, when a variable stands twice. */
enum { LITERAL_OPEN = 0, LITERAL_TRUE = 1, LITERAL_FALSE = 2 };
int8_t *session_truth(struct session *session);
bool take_as_false(int8_t *truth, const int32_t *literals, uint32_t count);
void release(int8_t *truth, const int32_t *literals, uint32_t count);

struct answer refuse(enum refusal number);

#endif
