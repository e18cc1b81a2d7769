/* Writing records and answering them in the same breath, and the spoiling of
 * sound derivations. */
#include "run.h"

#include <stdio.h>
#include <stdlib.h>
#include <string.h>

#include "counter.h"

void run_begin(struct run *run, uint64_t seed, struct bytes *out)
{
    run->chance.state = seed;
    run->out = out;
    run->twist = 0;
    session_clear(&run->session);
}

/* Answers the record that was written from `start` on. */
static struct answer answered(struct run *run, size_t start)
{
    return answer_record(&run->session, run->out->data + start + LENGTH_BYTES,
                         (uint32_t)(run->out->length - start - LENGTH_BYTES));
}

struct answer make_open(struct run *run, uint32_t variables)
{
    size_t start = run->out->length;
    put_open(run->out, variables);
    return answered(run, start);
}

struct answer make_rule(struct run *run, const int32_t *literals, uint32_t count)
{
    size_t start = run->out->length;
    put_rule(run->out, literals, count);
    return answered(run, start);
}

struct answer make_wish(struct run *run, uint32_t weight,
                        const int32_t *literals, uint32_t count)
{
    size_t start = run->out->length;
    put_wish(run->out, weight, literals, count);
    return answered(run, start);
}

struct answer make_derive(struct run *run, const int32_t *literals, uint32_t count,
                          const struct hint *hints, uint32_t hint_count)
{
    size_t start = run->out->length;
    put_derive(run->out, literals, count, hints, hint_count);
    return answered(run, start);
}

struct answer make_core(struct run *run, uint32_t number)
{
    size_t start = run->out->length;
    put_core(run->out, number);
    return answered(run, start);
}

struct answer make_record(struct run *run, uint32_t kind, const void *payload, size_t length)
{
    size_t start = record_begin(run->out, kind);
    put_all(run->out, payload, length);
    record_end(run->out, start);
    return answered(run, start);
}

struct answer make_judge(struct run *run, const uint8_t *arrangement)
{
    return make_record(run, KIND_JUDGE, arrangement, (run->session.variables + 7) / 8);
}

struct answer make_random_judge(struct run *run)
{
    uint8_t arrangement[PROBLEM_VARIABLES / 8] = { 0 };
    for (uint32_t bit = 0; bit < run->session.variables; bit++)
        if (draw_percent(&run->chance, 50))
            arrangement[bit / 8] |= (uint8_t)(1u << (bit % 8));
    return make_judge(run, arrangement);
}

static struct hint plain_hint(uint16_t family, uint32_t number)
{
    struct hint hint = { family, 0, number };
    return hint;
}

struct hint rule_hint(uint32_t number)
{
    return plain_hint(FAMILY_RULE, number);
}

struct hint wish_hint(uint32_t number)
{
    return plain_hint(FAMILY_WISH, number);
}

struct hint derived_hint(uint32_t number)
{
    return plain_hint(FAMILY_DERIVED, number);
}

struct hint counter_hint(uint32_t counter, uint32_t clause)
{
    struct hint hint = { FAMILY_COUNTER, (uint16_t)counter, clause };
    return hint;
}

void draw_clause(struct run *run, int32_t *literals, uint32_t count, uint32_t negative_percent)
{
    uint32_t variables = run->session.variables;
    uint32_t made = 0;

    /* Walks over the variables and takes each with the chance that leaves
     * exactly `count` taken; then shuffles. */
    for (uint32_t variable = 1; variable <= variables && made < count; variable++)
        if (draw_below(&run->chance, variables - variable + 1) < count - made)
            literals[made++] = draw_percent(&run->chance, negative_percent)
                               ? -(int32_t)variable : (int32_t)variable;
    for (uint32_t place = 1; place < made; place++) {
        uint32_t other = draw_below(&run->chance, place + 1);
        int32_t held = literals[place];
        literals[place] = literals[other];
        literals[other] = held;
    }
}

/* A number mostly below the count, else just behind it or far away. */
static uint32_t draw_number(struct run *run, uint32_t count)
{
    uint32_t choice = draw_below(&run->chance, 20);
    if (choice == 0)
        return count;
    if (choice == 1)
        return (uint32_t)draw(&run->chance);
    return count == 0 ? 0 : draw_below(&run->chance, count);
}

struct hint draw_hint(struct run *run)
{
    const struct session *session = &run->session;
    struct hint hint = { (uint16_t)draw_between(&run->chance, 1, 4), 0, 0 };

    if (draw_percent(&run->chance, 2))
        hint.family = (uint16_t)draw_below(&run->chance, 7);
    if (hint.family == FAMILY_RULE)
        hint.second = draw_number(run, session->rules);
    else if (hint.family == FAMILY_WISH)
        hint.second = draw_number(run, session->wishes);
    else if (hint.family == FAMILY_DERIVED)
        hint.second = draw_number(run, session->derived);
    else if (hint.family == FAMILY_COUNTER && session->counters > 0) {
        hint.first = (uint16_t)draw_number(run, session->counters);
        if (hint.first < session->counters)
            hint.second = draw_number(run,
                counter_clauses[counter_inputs(session, hint.first).count]);
    }
    if (hint.family != FAMILY_COUNTER && draw_percent(&run->chance, 1))
        hint.first = (uint16_t)draw(&run->chance);
    return hint;
}

int32_t draw_literal(struct run *run)
{
    const struct session *session = &run->session;
    uint32_t choice = draw_below(&run->chance, 10);
    uint32_t variable;

    if (choice == 0 && session->counters > 0) {
        uint32_t counter = draw_below(&run->chance, session->counters);
        uint32_t size = counter_variables[counter_inputs(session, counter).count];
        variable = (uint32_t)counter_variable(counter, draw_number(run, size) % COUNTER_STRIDE);
    } else if (choice <= 4 && session->wishes > 0) {
        variable = FIRST_WISH_VARIABLE + draw_number(run, session->wishes) % WISH_ROOM;
    } else {
        variable = 1 + draw_number(run, session->variables);
    }
    if (draw_percent(&run->chance, 2))
        variable = (uint32_t)draw(&run->chance);
    return draw_percent(&run->chance, 50) ? (int32_t)variable : (int32_t)(0u - variable);
}

/* A sound derivation to be spoilt, with room for one hint and one literal
 * more than are allowed. */
struct spoilt {
    uint32_t count;
    uint32_t hint_count;
    int32_t literals[CLAUSE_LITERALS + 1];
    struct hint hints[DERIVATION_HINTS + 1];
};

static void spoil_hints(struct run *run, struct spoilt *spoilt)
{
    uint32_t place = draw_below(&run->chance, spoilt->hint_count);
    uint32_t other = draw_below(&run->chance, spoilt->hint_count);
    struct hint held = spoilt->hints[place];

    switch (draw_below(&run->chance, 5)) {
    case 0: /* one left out */
        memmove(spoilt->hints + place, spoilt->hints + place + 1,
                (spoilt->hint_count - place - 1) * sizeof held);
        spoilt->hint_count--;
        break;
    case 1: /* two in the other order */
        spoilt->hints[place] = spoilt->hints[other];
        spoilt->hints[other] = held;
        break;
    case 2: /* another one instead */
        spoilt->hints[place] = draw_hint(run);
        break;
    case 3: /* one more, also behind the ending */
        place = draw_below(&run->chance, spoilt->hint_count + 1);
        memmove(spoilt->hints + place + 1, spoilt->hints + place,
                (spoilt->hint_count - place) * sizeof held);
        spoilt->hints[place] = draw_percent(&run->chance, 50) ? held : draw_hint(run);
        spoilt->hint_count++;
        break;
    default: /* the neighbouring clause */
        spoilt->hints[place].second += draw_percent(&run->chance, 50) ? 1 : UINT32_MAX;
        break;
    }
}

static void spoil_literals(struct run *run, struct spoilt *spoilt)
{
    uint32_t place = spoilt->count == 0 ? 0 : draw_below(&run->chance, spoilt->count);

    if (spoilt->count == 0 || draw_percent(&run->chance, 40)) {
        spoilt->literals[spoilt->count++] = draw_literal(run);
    } else if (draw_percent(&run->chance, 50)) {
        spoilt->literals[place] = spoilt->literals[--spoilt->count];
    } else {
        int32_t literal = spoilt->literals[place];
        spoilt->literals[place] = draw_percent(&run->chance, 50) ? -literal : literal + 1;
    }
}

struct answer make_shown(struct run *run, const int32_t *literals, uint32_t count,
                         const struct hint *hints, uint32_t hint_count)
{
    if (draw_percent(&run->chance, run->twist)) {
        struct spoilt spoilt = { count, hint_count, { 0 }, { { 0, 0, 0 } } };
        memcpy(spoilt.literals, literals, count * sizeof *literals);
        memcpy(spoilt.hints, hints, hint_count * sizeof *hints);
        if (hint_count > 0 && draw_percent(&run->chance, 60))
            spoil_hints(run, &spoilt);
        else
            spoil_literals(run, &spoilt);
        make_derive(run, spoilt.literals, spoilt.count, spoilt.hints, spoilt.hint_count);
    }
    struct answer answer = make_derive(run, literals, count, hints, hint_count);
    if (answer.number != ACCEPTED && answer.number != NO_ROOM) {
        fprintf(stderr, "tally: the generator's own derivation got %u\n",
                (unsigned)answer.number);
        abort();
    }
    return answer;
}
