/* Counters of chosen widths. Every clause of the counter is named by a hint:
 * each shows itself, and near misses of it must be refused. Besides, the
 * counting of chosen inputs is shown bottom up through the whole tree. */
#include "generate.h"

#include "counter.h"

uint32_t make_counter(struct run *run, uint32_t inputs, bool even_weights)
{
    int32_t literals[COUNTER_INPUTS];
    struct hint hints[COUNTER_INPUTS + 1];
    uint32_t first_wish = run->session.wishes;

    draw_clause(run, literals, inputs, 30);
    uint32_t rule = make_rule(run, literals, inputs).first;
    for (uint32_t place = 0; place < inputs; place++) {
        int32_t unwanted = -literals[place];
        make_wish(run, even_weights ? 7 : draw_between(&run->chance, 1, 50), &unwanted, 1);
        hints[place] = wish_hint(first_wish + place);
        literals[place] = wish_variable(first_wish + place);
    }
    hints[inputs] = rule_hint(rule);
    for (uint32_t place = 1; place < inputs; place++) {
        uint32_t other = draw_below(&run->chance, place + 1);
        int32_t held = literals[place];
        literals[place] = literals[other];
        literals[other] = held;
    }
    uint32_t derived = make_shown(run, literals, inputs, hints, inputs + 1).first;
    make_core(run, derived);
    return run->session.counters - 1;
}

static void name_each_clause(struct run *run, uint32_t counter)
{
    uint32_t inputs = counter_inputs(&run->session, counter).count;

    for (uint32_t clause = 0; clause < counter_clauses[inputs]; clause++) {
        int32_t literals[CLAUSE_LITERALS + 1];
        struct hint hint = counter_hint(counter, clause);
        uint32_t count = hint_clause(&run->session, hint, literals);
        make_shown(run, literals, count, &hint, 1);
        if (draw_percent(&run->chance, 20)) {
            uint32_t place = draw_below(&run->chance, count);
            literals[place] += draw_percent(&run->chance, 50) ? 1 : -1;
            make_derive(run, literals, count, &hint, 1);
        }
    }
    struct hint past = counter_hint(counter, counter_clauses[inputs]);
    make_derive(run, (int32_t[]){ 1 }, 1, &past, 1);
}

/* A way through the tree, up from the chosen inputs or down to all. */
struct climb {
    uint32_t counter;
    uint64_t chosen;
    uint32_t hint_count;
    struct hint hints[2 * COUNTER_INPUTS];
};

/* Adds the hints of the part over `count` inputs from `first` on, whose
 * clauses start at `clause`; returns how many of its inputs are chosen. */
static uint32_t climb_part(struct climb *climb, uint32_t first, uint32_t count, uint32_t clause)
{
    if (count == 1)
        return climb->chosen >> first & 1;
    uint32_t left = count / 2;
    uint32_t right = count - left;
    uint32_t own = (left + 1) * (right + 1) - 1;
    uint32_t from_left = climb_part(climb, first, left, clause + own);
    uint32_t from_right = climb_part(climb, first + left, right,
                                     clause + own + counter_clauses[left]);
    if (from_left + from_right > 0)
        climb->hints[climb->hint_count++] =
            counter_hint(climb->counter, clause + from_left * (right + 1) + from_right - 1);
    return from_left + from_right;
}

void count_chosen(struct run *run, uint32_t counter)
{
    struct stretch inputs = counter_inputs(&run->session, counter);
    struct climb climb = { .counter = counter, .chosen = draw(&run->chance) };
    int32_t literals[CLAUSE_LITERALS + 1];
    uint32_t count = 0;

    if (draw_percent(&run->chance, 50))
        climb.chosen &= draw(&run->chance);
    for (uint32_t place = 0; place < inputs.count; place++)
        if (climb.chosen >> place & 1)
            literals[count++] = -inputs.literals[place];
    uint32_t chosen = climb_part(&climb, 0, inputs.count, 0);
    if (chosen == 0 || chosen >= CLAUSE_LITERALS)
        return;
    literals[count++] = counter_variable(counter, chosen - 1);
    make_shown(run, literals, count, climb.hints, climb.hint_count);
    literals[count - 1]++;
    make_derive(run, literals, count, climb.hints, climb.hint_count);
}

/* Adds the hints that carry a false first output down to the inputs of the
 * part over `count` inputs whose clauses start at `clause`. */
static void descend_part(struct climb *climb, uint32_t count, uint32_t clause)
{
    if (count == 1)
        return;
    uint32_t left = count / 2;
    uint32_t right = count - left;
    uint32_t own = (left + 1) * (right + 1) - 1;
    climb->hints[climb->hint_count++] = counter_hint(climb->counter, clause);
    climb->hints[climb->hint_count++] = counter_hint(climb->counter, clause + right);
    descend_part(climb, left, clause + own);
    descend_part(climb, right, clause + own + counter_clauses[left]);
}

void try_first_output(struct run *run, uint32_t counter)
{
    struct climb climb = { .counter = counter };
    int32_t first_output = counter_variable(counter, 0);
    uint32_t inputs = counter_inputs(&run->session, counter).count;

    descend_part(&climb, inputs, 0);
    climb.hints[climb.hint_count++] = derived_hint(run->session.counter_source[counter]);
    struct answer answer = make_shown(run, &first_output, 1, climb.hints, climb.hint_count);
    if (answer.number == ACCEPTED)
        make_core(run, answer.first);
}

void generate_counters(struct run *run)
{
    static const uint8_t widths[] = { 2, 3, 33, 63, 64 };
    uint32_t width = draw_percent(&run->chance, 75)
                     ? widths[draw_below(&run->chance, sizeof widths)]
                     : draw_between(&run->chance, 2, COUNTER_INPUTS);

    make_open(run, draw_between(&run->chance, COUNTER_INPUTS, 300));
    for (uint32_t before = draw_below(&run->chance, 4); before > 0; before--)
        make_counter(run, draw_between(&run->chance, 2, 9), false);
    uint32_t counter = make_counter(run, width, draw_percent(&run->chance, 70));
    run->twist = 10;
    name_each_clause(run, counter);
    for (uint32_t time = 0; time < 30; time++)
        count_chosen(run, draw_below(&run->chance, run->session.counters));
    try_first_output(run, counter);
    make_random_judge(run);
}

/* Takes up to `wanted` weighted variables, newest counters first by chance. */
static uint32_t draw_members(struct run *run, int32_t *members, uint32_t wanted)
{
    const struct session *session = &run->session;
    uint32_t count = 0;

    for (uint32_t counter = session->counters; counter > 0 && count < wanted; counter--) {
        uint32_t inputs = counter_inputs(session, counter - 1).count;
        for (uint32_t output = 2; output <= inputs && count < wanted; output++) {
            int32_t variable = counter_variable(counter - 1, output - 1);
            if (session->remaining[variable] > 0 && draw_percent(&run->chance, 50))
                members[count++] = variable;
        }
    }
    for (uint32_t wish = 0; wish < session->wishes && count < wanted; wish++)
        if (session->remaining[wish_variable(wish)] > 0 && draw_percent(&run->chance, 60))
            members[count++] = wish_variable(wish);
    return count;
}

/* Behind the empty clause any core can be shown, so all the counters can be
 * made at once, over wishes and over outputs of earlier counters. */
void generate_forest(struct run *run)
{
    static const int32_t either[2] = { 1, -1 };
    struct hint contradiction[2] = { rule_hint(0), rule_hint(1) };

    make_open(run, draw_between(&run->chance, 1, 20));
    make_rule(run, either, 1);
    make_rule(run, either + 1, 1);
    for (uint32_t wish = draw_between(&run->chance, 64, WISH_ROOM); wish > 0; wish--)
        make_wish(run, draw_between(&run->chance, 1, GREATEST_WEIGHT), either, 1);
    struct hint empty = derived_hint(make_shown(run, either, 0, contradiction, 2).first);
    uint32_t narrow = draw_between(&run->chance, 2, COUNTER_INPUTS);
    for (uint32_t time = 0; time < COUNTER_ROOM + 4; time++) {
        int32_t members[COUNTER_INPUTS];
        uint32_t wanted = draw_between(&run->chance, 1, narrow);
        uint32_t count = draw_members(run, members, wanted);
        make_core(run, make_shown(run, members, count, &empty, 1).first);
    }
    run->twist = 20;
    for (uint32_t time = 0; time < 40; time++)
        count_chosen(run, draw_below(&run->chance, run->session.counters));
    try_first_output(run, draw_below(&run->chance, run->session.counters));
    if (run->session.derived + 2400 < DERIVED_ROOM)
        name_each_clause(run, run->session.counters - 1);
    make_random_judge(run);
}
