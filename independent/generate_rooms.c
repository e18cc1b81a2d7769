/* Rooms filled to the brim and one past it. Each kind fills one room, tries
 * what no longer fits and what still does, and shows that lower refusals
 * still come first. */
#include "generate.h"

static void fill_with(int32_t *literals, uint32_t count, int32_t first)
{
    for (uint32_t place = 0; place < count; place++)
        literals[place] = first + (int32_t)place;
}

static uint32_t room_variables(struct run *run)
{
    return draw_percent(&run->chance, 20) ? PROBLEM_VARIABLES
                                          : draw_between(&run->chance, CLAUSE_LITERALS + 2, 500);
}

static struct answer make_either(struct run *run, bool wish, uint32_t weight,
                                 const int32_t *literals, uint32_t count)
{
    return wish ? make_wish(run, weight, literals, count) : make_rule(run, literals, count);
}

/* A few more clauses at a full room: fitting ones and faulty ones. */
static void try_past(struct run *run, bool wish)
{
    static const int32_t sound[2] = { 3, 4 };
    static const int32_t faulty[][2] = { { 1, 1 }, { 1, 0 }, { 5, -5 }, { 2001, 1 } };

    for (uint32_t count = 0; count <= 2; count++)
        make_either(run, wish, 1, sound, count);
    for (uint32_t time = 0; time < sizeof faulty / sizeof *faulty; time++)
        make_either(run, wish, draw_below(&run->chance, 3), faulty[time], 2);
    make_random_judge(run);
}

void generate_rule_room(struct run *run)
{
    int32_t literals[8];

    make_open(run, room_variables(run));
    for (uint32_t rule = 0; rule < RULE_ROOM; rule++) {
        uint32_t count = draw_between(&run->chance, 1, 8);
        draw_clause(run, literals, count, 50);
        make_rule(run, literals, count);
    }
    try_past(run, false);
    make_wish(run, 5, literals, 1);
    struct hint last = rule_hint(RULE_ROOM - 1);
    struct stretch clause = rule_clause(&run->session, RULE_ROOM - 1);
    make_derive(run, clause.literals, clause.count, &last, 1);
    last.second++;
    make_derive(run, literals, 1, &last, 1);
}

void generate_wish_room(struct run *run)
{
    int32_t literals[8];

    make_open(run, room_variables(run));
    for (uint32_t wish = 0; wish < WISH_ROOM; wish++) {
        uint32_t count = draw_between(&run->chance, 0, 8);
        draw_clause(run, literals, count, 50);
        make_wish(run, draw_percent(&run->chance, 80) ? GREATEST_WEIGHT : 1, literals, count);
    }
    try_past(run, true);
    make_rule(run, literals, 1);
    struct hint last = wish_hint(WISH_ROOM - 1);
    int32_t clause[CLAUSE_LITERALS + 1];
    uint32_t count = hint_clause(&run->session, last, clause);
    make_derive(run, clause, count, &last, 1);
    last.second++;
    make_derive(run, clause, count, &last, 1);
}

/* Clauses of full length up to a remainder, then clauses that just fit and
 * just do not. */
static void fill_literals(struct run *run, bool wish, uint32_t room)
{
    int32_t literals[CLAUSE_LITERALS];
    uint32_t left = room;
    uint32_t stop = draw_between(&run->chance, 0, CLAUSE_LITERALS - 1);

    while (left > stop) {
        uint32_t count = left - stop < CLAUSE_LITERALS ? left - stop : CLAUSE_LITERALS;
        draw_clause(run, literals, count, 50);
        make_either(run, wish, 9, literals, count);
        left -= count;
    }
    for (uint32_t time = 0; time < 2; time++) {
        for (uint32_t more = 2; more > 0; more--) {
            uint32_t count = (time == 0 ? left : 0) + more - 1;
            draw_clause(run, literals, count, 50);
            make_either(run, wish, 9, literals, count);
        }
    }
    try_past(run, wish);
}

void generate_rule_literal_room(struct run *run)
{
    make_open(run, room_variables(run));
    fill_literals(run, false, RULE_LITERAL_ROOM);
}

void generate_wish_literal_room(struct run *run)
{
    make_open(run, room_variables(run));
    fill_literals(run, true, WISH_LITERAL_ROOM);
}

/* A start in which much can be shown: one long rule, one short one, and a
 * wish against the short one. */
static void easy_start(struct run *run)
{
    int32_t literals[CLAUSE_LITERALS];
    int32_t unwanted = -1;

    make_open(run, room_variables(run));
    fill_with(literals, CLAUSE_LITERALS, 1);
    make_rule(run, literals, CLAUSE_LITERALS);
    make_rule(run, literals, 1);
    make_wish(run, 4, &unwanted, 1);
    make_wish(run, 6, &unwanted, 1);
}

static void derived_past(struct run *run)
{
    struct hint short_rule = rule_hint(1);
    struct hint core_hints[2] = { wish_hint(1), rule_hint(1) };
    struct hint unknown = derived_hint(run->session.derived);
    int32_t literals[2] = { 1, 2 };
    int32_t member = wish_variable(1);

    make_derive(run, literals, 1, &short_rule, 1);
    make_derive(run, literals, 2, &short_rule, 1);
    make_derive(run, literals + 1, 1, &short_rule, 1);
    make_derive(run, literals, 1, &unknown, 1);
    make_derive(run, &member, 1, core_hints, 2);
    make_core(run, run->session.derived);
    make_core(run, run->session.derived - 1);
    make_core(run, 0);
    make_core(run, 0);
    make_random_judge(run);
}

void generate_derived_room(struct run *run)
{
    struct hint core_hints[2] = { wish_hint(0), rule_hint(1) };
    int32_t member = wish_variable(0);

    easy_start(run);
    make_derive(run, &member, 1, core_hints, 2);
    while (run->session.derived < DERIVED_ROOM) {
        int32_t literals[4] = { 1, 2, 3, -4 };
        struct hint hint = draw_percent(&run->chance, 50) || run->session.derived < 2
                           ? rule_hint(1)
                           : derived_hint(draw_between(&run->chance, 1,
                                                       run->session.derived - 1));
        make_derive(run, literals, draw_between(&run->chance, 1, 4), &hint, 1);
    }
    derived_past(run);
}

void generate_derived_literal_room(struct run *run)
{
    int32_t literals[CLAUSE_LITERALS + 1];
    struct hint core_hints[2] = { wish_hint(0), rule_hint(1) };
    int32_t member = wish_variable(0);
    struct hint long_rule = rule_hint(0);

    easy_start(run);
    make_derive(run, &member, 1, core_hints, 2);
    fill_with(literals, CLAUSE_LITERALS, 1);
    while (make_derive(run, literals, CLAUSE_LITERALS, &long_rule, 1).number == ACCEPTED)
        ;
    /* One literal less than a full clause is left: fill it by chance. */
    struct hint short_rule = rule_hint(1);
    for (uint32_t time = 0; time < 40; time++)
        make_derive(run, literals, draw_between(&run->chance, 1, 20), &short_rule, 1);
    for (uint32_t count = 8; count > 0; count--)
        make_derive(run, literals, count, &short_rule, 1);
    /* A contradiction lets the empty clause in, which needs no literals. */
    int32_t against = -1;
    struct hint contradiction[2] = { short_rule, rule_hint(2) };
    make_rule(run, &against, 1);
    make_derive(run, literals, 0, contradiction, 2);
    derived_past(run);
}

/* One heavy wish meets many light ones: every pair gives a core of two. */
void generate_counter_room(struct run *run)
{
    int32_t pair[2] = { 1, 2 };
    int32_t unwanted[3] = { -1, -2, -3 };
    int32_t needed = 3;
    uint32_t light = draw_between(&run->chance, 1, 3);

    make_open(run, draw_between(&run->chance, 3, 50));
    make_rule(run, pair, 2);
    make_rule(run, &needed, 1);
    make_wish(run, GREATEST_WEIGHT, unwanted, 1);
    make_wish(run, 11, unwanted + 2, 1);
    for (uint32_t core = 0; core < COUNTER_ROOM + 2; core++) {
        uint32_t wish = make_wish(run, light, unwanted + 1, 1).first;
        struct hint hints[3] = { wish_hint(0), wish_hint(wish), rule_hint(0) };
        int32_t members[2] = { wish_variable(0), wish_variable(wish) };
        make_core(run, make_derive(run, members, 2, hints, 3).first);
    }
    /* Spent members are refused before the full room is looked at. */
    make_core(run, 0);
    make_core(run, COUNTER_ROOM + 1);
    make_core(run, COUNTER_ROOM + 2);
    struct hint one_hints[2] = { wish_hint(1), rule_hint(1) };
    int32_t one = wish_variable(1);
    uint32_t derived = make_derive(run, &one, 1, one_hints, 2).first;
    make_core(run, derived);
    make_core(run, derived);
    make_random_judge(run);
}

/* Empty wishes are broken by everything; each alone is a core of one. With
 * all of them the bound reaches the most it ever can. */
void generate_greatest_bound(struct run *run)
{
    bool shuffled = draw_percent(&run->chance, 50);

    make_open(run, draw_between(&run->chance, 1, 30));
    for (uint32_t wish = 0; wish < WISH_ROOM; wish++)
        make_wish(run, GREATEST_WEIGHT, NULL, 0);
    for (uint32_t wish = 0; wish < WISH_ROOM; wish++) {
        uint32_t chosen = shuffled ? (wish * 205 + 3) % WISH_ROOM : wish;
        struct hint hint = wish_hint(chosen);
        int32_t member = wish_variable(chosen);
        make_core(run, make_derive(run, &member, 1, &hint, 1).first);
        if (draw_percent(&run->chance, 2))
            make_random_judge(run);
    }
    make_random_judge(run);
}

/* Derivations with about as many hints and literals as there may be: a chain
 * of implications, and literals that only weaken the clause. */
void generate_long_derivations(struct run *run)
{
    struct hint hints[DERIVATION_HINTS + 2];
    int32_t literals[CLAUSE_LITERALS + 2];
    const int32_t links = DERIVATION_HINTS + 2;

    make_open(run, draw_between(&run->chance, 400, PROBLEM_VARIABLES));
    for (int32_t link = 1; link <= links; link++)
        make_rule(run, (int32_t[]){ -link, link + 1 }, 2);
    for (uint32_t time = 0; time < 40; time++) {
        uint32_t hint_count = draw_between(&run->chance, DERIVATION_HINTS - 2,
                                           DERIVATION_HINTS + 2);
        uint32_t count = draw_percent(&run->chance, 50)
                         ? draw_between(&run->chance, CLAUSE_LITERALS - 2, CLAUSE_LITERALS + 1)
                         : draw_between(&run->chance, 2, CLAUSE_LITERALS);
        for (uint32_t place = 0; place < hint_count; place++)
            hints[place] = rule_hint(place);
        if (draw_percent(&run->chance, 20))
            hints[draw_below(&run->chance, hint_count)].second++;
        literals[0] = -1;
        literals[1] = (int32_t)hint_count + 1;
        fill_with(literals + 2, count - 2, links + 2);
        make_derive(run, literals, count, hints, hint_count);
    }
}
