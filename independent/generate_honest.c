/* Honest sessions: problems of several shapes, real conflicts found by the
 * search, cores until an arrangement is proved best, then late rules and
 * late wishes and the same again. Small shapes stay within what the naive
 * program of the tests can go through one by one. */
#include "generate.h"

#include <stdio.h>
#include <stdlib.h>

#include "search.h"

/* How a run is to be solved. */
struct manner {
    uint32_t rounds;       /* solving, and again after late additions */
    uint32_t budget;       /* conflicts in one search */
    uint32_t steps;        /* cores in one round */
    uint32_t extra;        /* members a core may be widened by */
    uint32_t weight_shape;
};

static uint32_t draw_weight(struct run *run, uint32_t shape)
{
    switch (shape) {
    case 0:
        return 1;
    case 1:
        return draw_between(&run->chance, 1, 5);
    case 2:
        return draw_between(&run->chance, 1, 100);
    case 3:
        return draw_between(&run->chance, 1, GREATEST_WEIGHT);
    default:
        return draw_percent(&run->chance, 50) ? 1 : GREATEST_WEIGHT;
    }
}

static void random_rule(struct run *run, uint32_t least)
{
    int32_t literals[4];
    uint32_t count = draw_between(&run->chance, least, 3);
    if (count > run->session.variables)
        count = run->session.variables;
    draw_clause(run, literals, count, 35);
    make_rule(run, literals, count);
}

static void random_wish(struct run *run, uint32_t weight_shape)
{
    int32_t literals[4];
    uint32_t count = draw_percent(&run->chance, 70) ? 1 : draw_below(&run->chance, 4);
    if (count > run->session.variables)
        count = run->session.variables;
    draw_clause(run, literals, count, 65);
    make_wish(run, draw_weight(run, weight_shape), literals, count);
}

static void late_additions(struct run *run, const struct manner *manner)
{
    uint32_t rules = draw_below(&run->chance, 3);
    uint32_t wishes = draw_below(&run->chance, 4);

    while (rules-- > 0)
        random_rule(run, 2);
    while (wishes-- > 0)
        random_wish(run, manner->weight_shape);
}

/* What a run does now and then between sound steps. */
static void wander(struct run *run)
{
    if (draw_percent(&run->chance, 15))
        make_random_judge(run);
    if (draw_percent(&run->chance, 5))
        make_core(run, draw_below(&run->chance, run->session.derived + 2));
}

/* Behind the empty clause everything can be shown, and every weight can
 * still be moved into the bound. */
static void go_on_without_arrangements(struct run *run, uint32_t empty)
{
    struct hint hint = derived_hint(empty);
    const struct session *session = &run->session;

    for (uint32_t time = draw_below(&run->chance, 6); time > 0; time--) {
        int32_t members[CLAUSE_LITERALS];
        uint32_t count = 0;
        uint32_t wanted = draw_between(&run->chance, 1, 5);
        for (uint32_t wish = 0; wish < session->wishes && count < wanted; wish++)
            if (session->remaining[wish_variable(wish)] > 0 && draw_percent(&run->chance, 70))
                members[count++] = wish_variable(wish);
        struct answer answer = make_shown(run, members, count, &hint, 1);
        if (answer.number == ACCEPTED)
            make_core(run, answer.first);
        make_random_judge(run);
    }
}

static void expect(bool holds, const char *what)
{
    if (!holds) {
        fprintf(stderr, "tally: the generator expected %s\n", what);
        abort();
    }
}

/* One conflict into the run. False when the run cannot go on from it. */
static bool use_conflict(struct run *run, const struct conflict *conflict)
{
    struct answer derived = make_shown(run, conflict->literals, conflict->count,
                                       conflict->hints, conflict->hint_count);
    if (derived.number != ACCEPTED)
        return false;
    if (conflict->count == 0) {
        go_on_without_arrangements(run, derived.first);
        return false;
    }
    struct answer core = make_core(run, derived.first);
    if (core.number == NO_ROOM)
        return false;
    expect(core.number == ACCEPTED, "its core to be accepted");
    if (conflict->count >= 2 && draw_percent(&run->chance, 10))
        try_first_output(run, run->session.counters - 1);
    wander(run);
    return true;
}

/* Cores until an arrangement is best. False when no further round makes
 * sense. */
static bool solve(struct run *run, const struct manner *manner)
{
    static struct conflict conflict;
    uint8_t arrangement[PROBLEM_VARIABLES / 8];

    for (uint32_t step = 0; step < manner->steps; step++) {
        uint32_t extra = draw_percent(&run->chance, 40)
                         ? draw_below(&run->chance, manner->extra + 1) : 0;
        enum found found = search_step(manner->budget, extra, arrangement, &conflict);
        if (found == FOUND_NOTHING)
            return false;
        if (found == FOUND_ARRANGEMENT) {
            expect(make_judge(run, arrangement).number == BEST, "its arrangement to be best");
            return true;
        }
        if (!use_conflict(run, &conflict))
            return false;
    }
    return false;
}

static void solve_in_rounds(struct run *run, const struct manner *manner)
{
    search_begin(run);
    for (uint32_t round = 0; round < manner->rounds; round++) {
        if (round > 0)
            late_additions(run, manner);
        wander(run);
        if (!solve(run, manner))
            break;
    }
    make_random_judge(run);
}

static struct manner small_manner(struct run *run)
{
    struct manner manner = { .budget = 300, .steps = 100, .extra = 4 };
    manner.rounds = draw_between(&run->chance, 1, 5);
    manner.weight_shape = draw_below(&run->chance, 5);
    return manner;
}

void generate_honest(struct run *run)
{
    struct manner manner = small_manner(run);
    uint32_t variables = draw_between(&run->chance, 2, 12);
    uint32_t rules = draw_below(&run->chance, 2 * variables + 2);
    uint32_t wishes = draw_between(&run->chance, 1, 2 * variables);

    make_open(run, variables);
    while (rules-- > 0)
        random_rule(run, draw_percent(&run->chance, 15) ? 1 : 2);
    while (wishes-- > 0)
        random_wish(run, manner.weight_shape);
    solve_in_rounds(run, &manner);
}

/* Pairs of which one must be chosen, and a price for each choice. */
static void cover_rules(struct run *run, uint32_t pairs)
{
    while (pairs-- > 0) {
        int32_t pair[3];
        uint32_t count = draw_percent(&run->chance, 85) ? 2 : 3;
        draw_clause(run, pair, count, 0);
        make_rule(run, pair, count);
    }
}

static void price_wishes(struct run *run, uint32_t weight_shape)
{
    for (uint32_t variable = 1; variable <= run->session.variables; variable++) {
        int32_t unwanted = -(int32_t)variable;
        make_wish(run, draw_weight(run, weight_shape), &unwanted, 1);
    }
}

void generate_cover(struct run *run)
{
    struct manner manner = small_manner(run);
    uint32_t variables = draw_between(&run->chance, 3, 12);

    make_open(run, variables);
    cover_rules(run, draw_between(&run->chance, variables, 3 * variables));
    price_wishes(run, manner.weight_shape);
    solve_in_rounds(run, &manner);
}

static int32_t tube_variable(uint32_t tubes, uint32_t vial, uint32_t tube)
{
    return (int32_t)(tubes * vial + tube + 1);
}

static void exclude(struct run *run, int32_t first, int32_t second)
{
    int32_t pair[2] = { -first, -second };
    make_rule(run, pair, 2);
}

static void rack_rules(struct run *run, uint32_t vials, uint32_t tubes)
{
    for (uint32_t vial = 0; vial < vials; vial++) {
        int32_t some[CLAUSE_LITERALS];
        for (uint32_t tube = 0; tube < tubes; tube++)
            some[tube] = tube_variable(tubes, vial, tube);
        make_rule(run, some, tubes);
        for (uint32_t tube = 0; tube < tubes; tube++) {
            for (uint32_t other = 0; other < tube; other++)
                exclude(run, some[other], some[tube]);
            for (uint32_t earlier = 0; earlier < vial; earlier++)
                exclude(run, tube_variable(tubes, earlier, tube), some[tube]);
        }
    }
}

/* Vials into tubes, one in each at most, and wishes against neighbours. */
void generate_rack(struct run *run)
{
    static const uint8_t shapes[][2] = { { 2, 3 }, { 3, 3 }, { 2, 5 }, { 3, 4 }, { 4, 3 } };
    struct manner manner = small_manner(run);
    uint32_t shape = draw_below(&run->chance, sizeof shapes / sizeof *shapes);
    uint32_t vials = shapes[shape][0];
    uint32_t tubes = shapes[shape][1];

    make_open(run, vials * tubes);
    rack_rules(run, vials, tubes);
    for (uint32_t wish = draw_between(&run->chance, 2, 5); wish > 0; wish--) {
        uint32_t weight = draw_weight(run, manner.weight_shape);
        uint32_t vial = draw_below(&run->chance, vials);
        uint32_t other = (vial + draw_between(&run->chance, 1, vials - 1)) % vials;
        for (uint32_t tube = 0; tube + 1 < tubes; tube++) {
            int32_t pair[2] = { -tube_variable(tubes, vial, tube),
                                -tube_variable(tubes, other, tube + 1) };
            make_wish(run, weight, pair, 2);
        }
    }
    for (uint32_t wish = draw_below(&run->chance, 6); wish > 0; wish--)
        random_wish(run, manner.weight_shape);
    solve_in_rounds(run, &manner);
}

/* Larger problems: many cores, counters over outputs of counters. */
void generate_deep(struct run *run)
{
    struct manner manner = small_manner(run);
    uint32_t variables = draw_between(&run->chance, 15, 40);

    manner.steps = 130;
    manner.extra = 8;
    make_open(run, variables);
    cover_rules(run, draw_between(&run->chance, variables, 2 * variables));
    for (uint32_t rule = draw_below(&run->chance, variables / 2); rule > 0; rule--)
        random_rule(run, 2);
    price_wishes(run, manner.weight_shape);
    for (uint32_t wish = draw_below(&run->chance, variables); wish > 0; wish--)
        random_wish(run, manner.weight_shape);
    solve_in_rounds(run, &manner);
}

/* Long rules and widened cores, so that counters grow to their full width. */
void generate_wide(struct run *run)
{
    struct manner manner = small_manner(run);
    uint32_t variables = draw_between(&run->chance, 60, 150);

    manner.steps = 40;
    manner.extra = CLAUSE_LITERALS;
    make_open(run, variables);
    for (uint32_t rule = draw_between(&run->chance, 2, 6); rule > 0; rule--) {
        int32_t literals[CLAUSE_LITERALS];
        uint32_t count = draw_between(&run->chance, 20, variables < 64 ? variables : 64);
        draw_clause(run, literals, count, 0);
        make_rule(run, literals, count);
    }
    price_wishes(run, manner.weight_shape == 3 ? 0 : manner.weight_shape);
    solve_in_rounds(run, &manner);
}

void generate_unsatisfiable(struct run *run)
{
    struct manner manner = small_manner(run);
    uint32_t variables = draw_between(&run->chance, 1, 8);

    manner.rounds = 6;
    make_open(run, variables);
    for (uint32_t wish = draw_between(&run->chance, 1, 6); wish > 0; wish--)
        random_wish(run, manner.weight_shape);
    if (draw_percent(&run->chance, 15))
        make_rule(run, &(int32_t){ 0 }, 0);
    for (uint32_t rule = 0; rule < 6 * variables; rule++)
        random_rule(run, 1);
    solve_in_rounds(run, &manner);
}

/* Any of the honest shapes, with spoilt copies before sound derivations. */
void generate_twisted(struct run *run)
{
    static void (*const shapes[])(struct run *) = {
        generate_honest, generate_cover, generate_rack, generate_unsatisfiable, generate_deep
    };
    run->twist = draw_between(&run->chance, 30, 100);
    shapes[draw_below(&run->chance, sizeof shapes / sizeof *shapes)](run);
}
