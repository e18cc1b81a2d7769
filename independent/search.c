/* Conflict-driven search over the session's clauses. Occurrence lists are
 * visited in full instead of watching two literals: the runs are small, and
 * the order of propagation stays plain. Only problem variables are decided,
 * since all the others follow from them by propagation. */
#include "search.h"

#include <string.h>

#include "counter.h"

enum {
    SEARCH_CLAUSES = 65536,
    SEARCH_LITERALS = 262144,
    NONE = -1
};

struct clause {
    uint32_t start;
    uint32_t count;
    struct hint hint;
};

static struct search {
    struct run *run;
    /* How much of the session has been taken in. */
    uint32_t rules, wishes, derived, counters;

    uint32_t clauses;
    uint32_t literals_used;
    struct clause clause[SEARCH_CLAUSES];
    int32_t literal[SEARCH_LITERALS];
    /* Each place in `literal` is also a link in its literal's list. */
    int32_t next[SEARCH_LITERALS];
    int32_t clause_of[SEARCH_LITERALS];
    int32_t first_room[2 * VARIABLE_END];

    int8_t truth_room[2 * VARIABLE_END];
    bool marked[VARIABLE_END];
    uint32_t level[VARIABLE_END];
    int32_t reason[VARIABLE_END];
    int32_t trail[VARIABLE_END];
    uint32_t trail_count;
    uint32_t visited;
    uint32_t present_level;
    uint32_t level_start[VARIABLE_END];

    int32_t assumptions[VARIABLE_END];
    uint32_t assumption_count;

    /* The clause being worked out and the reasons met, latest first. */
    uint32_t learned_count;
    int32_t learned[VARIABLE_END];
    uint32_t reason_count;
    int32_t reasons[VARIABLE_END];
} search;

static int32_t *first_of(int32_t literal)
{
    return search.first_room + VARIABLE_END + literal;
}

static int8_t *truth_of(int32_t literal)
{
    return search.truth_room + VARIABLE_END + literal;
}

static bool add_clause(struct hint hint)
{
    int32_t literals[CLAUSE_LITERALS + 1];
    uint32_t count = hint_clause(&search.run->session, hint, literals);

    if (search.clauses == SEARCH_CLAUSES || count > SEARCH_LITERALS - search.literals_used)
        return false;
    struct clause *clause = &search.clause[search.clauses];
    clause->start = search.literals_used;
    clause->count = count;
    clause->hint = hint;
    for (uint32_t place = 0; place < count; place++) {
        uint32_t link = search.literals_used++;
        search.literal[link] = literals[place];
        search.clause_of[link] = (int32_t)search.clauses;
        search.next[link] = *first_of(literals[place]);
        *first_of(literals[place]) = (int32_t)link;
    }
    search.clauses++;
    return true;
}

static bool add_counter(uint32_t counter)
{
    struct stretch inputs = counter_inputs(&search.run->session, counter);
    for (uint32_t clause = 0; clause < counter_clauses[inputs.count]; clause++)
        if (!add_clause(counter_hint(counter, clause)))
            return false;
    return true;
}

bool search_update(void)
{
    const struct session *session = &search.run->session;
    bool fits = true;

    while (fits && search.rules < session->rules)
        fits = add_clause(rule_hint(search.rules++));
    while (fits && search.wishes < session->wishes)
        fits = add_clause(wish_hint(search.wishes++));
    while (fits && search.derived < session->derived)
        fits = add_clause(derived_hint(search.derived++));
    while (fits && search.counters < session->counters)
        fits = add_counter(search.counters++);
    return fits;
}

void search_begin(struct run *run)
{
    memset(&search, 0, sizeof search);
    memset(search.first_room, 0xff, sizeof search.first_room);
    search.run = run;
}

static void set_true(int32_t literal, int32_t reason)
{
    uint32_t variable = literal_size(literal);
    *truth_of(literal) = LITERAL_TRUE;
    *truth_of(-literal) = LITERAL_FALSE;
    search.level[variable] = search.present_level;
    search.reason[variable] = reason;
    search.trail[search.trail_count++] = literal;
}

static void go_back(uint32_t level)
{
    if (level >= search.present_level)
        return;
    uint32_t keep = search.level_start[level + 1];
    while (search.trail_count > keep) {
        int32_t literal = search.trail[--search.trail_count];
        *truth_of(literal) = LITERAL_OPEN;
        *truth_of(-literal) = LITERAL_OPEN;
    }
    search.visited = search.trail_count;
    search.present_level = level;
}

static void decide(int32_t literal)
{
    search.level_start[++search.present_level] = search.trail_count;
    if (literal != 0)
        set_true(literal, NONE);
}

/* Looks at one clause: a conflict gives its number back, a forced literal is
 * set. */
static bool clause_is_broken(int32_t number)
{
    const struct clause *clause = &search.clause[number];
    int32_t open = 0;

    for (uint32_t place = 0; place < clause->count; place++) {
        int32_t literal = search.literal[clause->start + place];
        if (*truth_of(literal) == LITERAL_FALSE)
            continue;
        if (*truth_of(literal) == LITERAL_TRUE || open != 0)
            return false;
        open = literal;
    }
    if (open == 0)
        return true;
    set_true(open, number);
    return false;
}

static int32_t propagate(void)
{
    while (search.visited < search.trail_count) {
        int32_t literal = search.trail[search.visited++];
        for (int32_t link = *first_of(-literal); link != NONE; link = search.next[link])
            if (clause_is_broken(search.clause_of[link]))
                return search.clause_of[link];
    }
    return NONE;
}

/* Nothing is kept between steps, so the clauses of at most one literal are
 * looked for here; the first empty one is a conflict. */
static int32_t start_over(void)
{
    go_back(0);
    while (search.trail_count > 0) {
        int32_t literal = search.trail[--search.trail_count];
        *truth_of(literal) = LITERAL_OPEN;
        *truth_of(-literal) = LITERAL_OPEN;
    }
    search.visited = 0;
    for (uint32_t number = 0; number < search.clauses; number++)
        if (search.clause[number].count <= 1 && clause_is_broken((int32_t)number))
            return (int32_t)number;
    return NONE;
}

/* Marks a clause's variables; returns how many new ones are of the present
 * level. */
static uint32_t mark_clause(int32_t number, int32_t except)
{
    const struct clause *clause = &search.clause[number];
    uint32_t of_level = 0;

    for (uint32_t place = 0; place < clause->count; place++) {
        int32_t literal = search.literal[clause->start + place];
        uint32_t variable = literal_size(literal);
        if (literal == except || search.marked[variable])
            continue;
        search.marked[variable] = true;
        if (search.level[variable] == search.present_level)
            of_level++;
    }
    return of_level;
}

/* Walks the trail backwards from the broken clause. With `to_decisions`
 * every forced literal is replaced by its reason; otherwise the walk stops
 * replacing at the first literal that alone carries the present level and at
 * literals of lower levels above 0. */
static void resolve(int32_t broken, int32_t except, bool to_decisions)
{
    uint32_t waiting = mark_clause(broken, except);

    search.reason_count = 0;
    search.reasons[search.reason_count++] = broken;
    for (uint32_t place = search.trail_count; place > 0; place--) {
        int32_t literal = search.trail[place - 1];
        uint32_t variable = literal_size(literal);
        bool of_level = search.level[variable] == search.present_level;
        if (!search.marked[variable])
            continue;
        search.marked[variable] = false;
        bool keep = search.reason[variable] == NONE;
        if (!to_decisions && search.level[variable] > 0)
            keep = keep || !of_level || waiting == 1;
        if (keep) {
            search.learned[search.learned_count++] = -literal;
        } else {
            search.reasons[search.reason_count++] = search.reason[variable];
            waiting += mark_clause(search.reason[variable], literal);
        }
        if (of_level)
            waiting--;
    }
}

/* Turns what resolve left into a derivation; false when it is too large. */
static bool write_conflict(struct conflict *conflict)
{
    if (search.learned_count > CLAUSE_LITERALS || search.reason_count > DERIVATION_HINTS)
        return false;
    conflict->count = search.learned_count;
    memcpy(conflict->literals, search.learned, search.learned_count * sizeof(int32_t));
    conflict->hint_count = search.reason_count;
    for (uint32_t place = 0; place < search.reason_count; place++) {
        int32_t reason = search.reasons[search.reason_count - 1 - place];
        conflict->hints[place] = search.clause[reason].hint;
    }
    return true;
}

/* Weighted variables that play no part in the derivation may join: the
 * clause only grows weaker. They play no part if no hint mentions them. */
static void widen(struct conflict *conflict, uint32_t extra)
{
    for (uint32_t place = 0; place < search.reason_count; place++)
        mark_clause(search.reasons[place], 0);
    for (uint32_t place = 0; place < search.assumption_count; place++) {
        int32_t variable = search.assumptions[place];
        bool known = search.marked[variable];
        for (uint32_t member = 0; member < conflict->count; member++)
            known = known || conflict->literals[member] == variable;
        if (!known && extra > 0 && conflict->count < CLAUSE_LITERALS) {
            conflict->literals[conflict->count++] = variable;
            extra--;
        }
    }
    memset(search.marked, 0, sizeof search.marked);
}

static bool core_from(int32_t broken, int32_t assumption, uint32_t extra,
                      struct conflict *conflict)
{
    search.learned_count = 0;
    if (assumption != 0)
        search.learned[search.learned_count++] = assumption;
    resolve(broken, assumption, true);
    if (!write_conflict(conflict))
        return false;
    if (conflict->count > 0 && extra > 0)
        widen(conflict, extra);
    return true;
}

/* Learns from a conflict above the assumptions, writes the clause to the run
 * and goes on where it forces its first literal. */
static bool learn(int32_t broken)
{
    static struct conflict conflict;
    uint32_t back = 0;
    int32_t forced = 0;

    search.learned_count = 0;
    resolve(broken, 0, false);
    if (!write_conflict(&conflict))
        return false;
    for (uint32_t place = 0; place < conflict.count; place++) {
        uint32_t level = search.level[literal_size(conflict.literals[place])];
        if (level == search.present_level)
            forced = conflict.literals[place];
        else if (level > back)
            back = level;
    }
    struct answer answer = make_shown(search.run, conflict.literals, conflict.count,
                                      conflict.hints, conflict.hint_count);
    if (answer.number != ACCEPTED || !search_update())
        return false;
    go_back(back);
    set_true(forced, (int32_t)search.clauses - 1);
    return true;
}

static void assume_if_weighted(int32_t variable)
{
    if (search.run->session.remaining[variable] > 0)
        search.assumptions[search.assumption_count++] = variable;
}

/* All weighted variables, in an order by chance. */
static void gather_assumptions(void)
{
    const struct session *session = &search.run->session;

    search.assumption_count = 0;
    for (uint32_t wish = 0; wish < session->wishes; wish++)
        assume_if_weighted(wish_variable(wish));
    for (uint32_t counter = 0; counter < session->counters; counter++)
        for (uint32_t output = 2; output <= counter_inputs(session, counter).count; output++)
            assume_if_weighted(counter_variable(counter, output - 1));
    for (uint32_t place = 1; place < search.assumption_count; place++) {
        uint32_t other = draw_below(&search.run->chance, place + 1);
        int32_t held = search.assumptions[place];
        search.assumptions[place] = search.assumptions[other];
        search.assumptions[other] = held;
    }
}

/* Decides some open problem variable; false when there is none. */
static bool decide_problem_variable(void)
{
    uint32_t variables = search.run->session.variables;
    uint32_t offset = draw_below(&search.run->chance, variables);

    for (uint32_t step = 0; step < variables; step++) {
        int32_t variable = (int32_t)((offset + step) % variables) + 1;
        if (*truth_of(variable) != LITERAL_OPEN)
            continue;
        decide(draw_percent(&search.run->chance, 50) ? variable : -variable);
        return true;
    }
    return false;
}

static void read_arrangement(uint8_t arrangement[PROBLEM_VARIABLES / 8])
{
    memset(arrangement, 0, PROBLEM_VARIABLES / 8);
    for (uint32_t bit = 0; bit < search.run->session.variables; bit++)
        if (*truth_of((int32_t)bit + 1) == LITERAL_TRUE)
            arrangement[bit / 8] |= (uint8_t)(1u << (bit % 8));
}

/* Takes the next assumption; when propagation has already made it wrong,
 * gives the clause that did so. */
static int32_t assume_next(int32_t *assumption)
{
    *assumption = search.assumptions[search.present_level];
    int8_t now = *truth_of(*assumption);
    if (now == LITERAL_TRUE)
        return search.reason[*assumption];
    decide(now == LITERAL_OPEN ? -*assumption : 0);
    return NONE;
}

enum found search_step(uint32_t budget, uint32_t extra,
                       uint8_t arrangement[PROBLEM_VARIABLES / 8],
                       struct conflict *conflict)
{
    if (!search_update())
        return FOUND_NOTHING;
    gather_assumptions();
    int32_t broken = start_over();
    for (;;) {
        int32_t assumption = 0;
        if (broken == NONE)
            broken = propagate();
        if (broken == NONE && search.present_level < search.assumption_count)
            broken = assume_next(&assumption);
        else if (broken == NONE && !decide_problem_variable()) {
            read_arrangement(arrangement);
            return FOUND_ARRANGEMENT;
        }
        if (broken == NONE)
            continue;
        if (search.present_level <= search.assumption_count)
            return core_from(broken, assumption, extra, conflict) ? FOUND_CONFLICT
                                                                  : FOUND_NOTHING;
        if (budget-- == 0 || !learn(broken))
            return FOUND_NOTHING;
        broken = NONE;
    }
}
