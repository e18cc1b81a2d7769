/* Refused records: every number on its own, and records with several faults
 * at once, of which the lowest must win. */
#include "generate.h"

#include <string.h>

/* A record to be written with or without faults. */
struct draft {
    uint32_t kind;
    uint32_t number; /* n, weight or derived number */
    uint32_t count;
    uint32_t hint_count;
    uint32_t spare_bytes; /* bytes too many, which spoil the form */
    uint32_t missing_bytes;
    int32_t literals[CLAUSE_LITERALS + 40];
    struct hint hints[DERIVATION_HINTS + 40];
};

static struct answer make_draft(struct run *run, const struct draft *draft)
{
    struct bytes payload = { NULL, 0, 0 };
    struct answer answer;

    if (draft->kind == KIND_DERIVE)
        put_4(&payload, draft->count);
    else if (draft->kind != KIND_RULE)
        put_4(&payload, draft->number);
    if (draft->kind == KIND_RULE || draft->kind == KIND_WISH || draft->kind == KIND_DERIVE)
        for (uint32_t place = 0; place < draft->count; place++)
            put_4(&payload, (uint32_t)draft->literals[place]);
    for (uint32_t place = 0; draft->kind == KIND_DERIVE && place < draft->hint_count; place++) {
        put_2(&payload, draft->hints[place].family);
        put_2(&payload, draft->hints[place].first);
        put_4(&payload, draft->hints[place].second);
    }
    for (uint32_t spare = 0; spare < draft->spare_bytes; spare++)
        put_1(&payload, 0);
    size_t missing = draft->missing_bytes < payload.length ? draft->missing_bytes
                                                           : payload.length;
    answer = make_record(run, draft->kind, payload.data, payload.length - missing);
    bytes_free(&payload);
    return answer;
}

/* A clause of `count` sound literals, as far as there are variables. */
static void sound_clause(struct run *run, struct draft *draft, uint32_t count)
{
    draft->count = count < run->session.variables ? count : run->session.variables;
    draw_clause(run, draft->literals, draft->count, 50);
}

static int32_t draw_bad_literal(struct run *run)
{
    static const int32_t bad[] = { 0, INT32_MIN, INT32_MAX, 2000, 2001 + 511, 4000, 53153,
                                   -2000, -4000, 100000 };
    uint32_t choice = draw_below(&run->chance, 12);
    if (choice < sizeof bad / sizeof *bad)
        return bad[choice];
    int32_t past = (int32_t)run->session.variables + 1;
    return choice == 10 ? past : -past;
}

static struct hint draw_bad_hint(struct run *run)
{
    const struct session *session = &run->session;
    struct hint bad[] = {
        { 0, 0, 0 }, { 5, 0, 0 }, { 65535, 0, 0 }, { 1, 1, 0 }, { 2, 256, 0 }, { 4, 1, 0 },
        { 1, 0, session->rules }, { 2, 0, session->wishes }, { 4, 0, session->derived },
        { 3, (uint16_t)session->counters, 0 }, { 3, 0, 2400 }, { 1, 0, UINT32_MAX },
        { 3, 65535, 0 }
    };
    return bad[draw_below(&run->chance, sizeof bad / sizeof *bad)];
}

static void too_many_literals(struct run *run, struct draft *draft)
{
    uint32_t wanted = draw_between(&run->chance, CLAUSE_LITERALS + 1, CLAUSE_LITERALS + 30);
    for (; draft->count < wanted; draft->count++)
        draft->literals[draft->count] = (int32_t)draft->count + 2;
}

static void bad_literal(struct run *run, struct draft *draft)
{
    if (draft->count == 0)
        draft->count = 1;
    uint32_t place = draw_below(&run->chance, draft->count);
    draft->literals[place] = draw_bad_literal(run);
}

static void repeated_variable(struct run *run, struct draft *draft)
{
    if (draft->count == 0)
        draft->literals[draft->count++] = 1;
    int32_t literal = draft->literals[draw_below(&run->chance, draft->count)];
    draft->literals[draft->count++] =
        draw_percent(&run->chance, 50) || literal == INT32_MIN ? literal : -literal;
}

static void too_many_hints(struct run *run, struct draft *draft)
{
    uint32_t wanted = draw_between(&run->chance, DERIVATION_HINTS + 1, DERIVATION_HINTS + 30);
    while (draft->hint_count < wanted)
        draft->hints[draft->hint_count++] = rule_hint(0);
}

static void bad_hint(struct run *run, struct draft *draft)
{
    if (draft->hint_count == 0)
        draft->hint_count = 1;
    uint32_t place = draw_below(&run->chance, draft->hint_count);
    draft->hints[place] = draw_bad_hint(run);
}

static void bad_form(struct run *run, struct draft *draft)
{
    if (draw_percent(&run->chance, 50))
        draft->spare_bytes = draw_between(&run->chance, 1, 3);
    else
        draft->missing_bytes = draw_between(&run->chance, 1, 7);
}

/* A rule, wish or derivation, first sound, then with faults by chance. */
static void faulty_clause(struct run *run, uint32_t fault_percent)
{
    struct draft draft;
    struct chance *chance = &run->chance;

    memset(&draft, 0, sizeof draft);
    draft.kind = draw_between(chance, KIND_RULE, KIND_DERIVE);
    draft.number = draw_between(chance, 1, 50);
    sound_clause(run, &draft, draw_between(chance, 1, 6));
    if (draft.kind == KIND_DERIVE && run->session.rules > 0) {
        uint32_t rule = draw_below(chance, run->session.rules);
        struct stretch clause = rule_clause(&run->session, rule);
        draft.count = clause.count;
        memcpy(draft.literals, clause.literals, clause.count * sizeof(int32_t));
        draft.hints[draft.hint_count++] = rule_hint(rule);
    }
    if (draw_percent(chance, fault_percent))
        draft.number = draw_percent(chance, 50) ? 0 : GREATEST_WEIGHT + 1;
    if (draw_percent(chance, fault_percent))
        repeated_variable(run, &draft);
    if (draw_percent(chance, fault_percent))
        too_many_literals(run, &draft);
    if (draw_percent(chance, fault_percent))
        bad_literal(run, &draft);
    if (draw_percent(chance, fault_percent) && draft.hint_count > 0)
        draft.hint_count--;
    if (draw_percent(chance, fault_percent))
        too_many_hints(run, &draft);
    if (draw_percent(chance, fault_percent))
        bad_hint(run, &draft);
    if (draw_percent(chance, fault_percent / 4))
        bad_form(run, &draft);
    make_draft(run, &draft);
}

/* A judging with too few or too many bytes, spare bits, or any bits. */
static void faulty_judge(struct run *run)
{
    uint8_t bytes[PROBLEM_VARIABLES / 8 + 2];
    uint32_t sound = (run->session.variables + 7) / 8;
    uint32_t length = sound;

    for (uint32_t place = 0; place < sizeof bytes; place++)
        bytes[place] = (uint8_t)draw(&run->chance);
    if (draw_percent(&run->chance, 30))
        length = draw_percent(&run->chance, 50) ? sound + 1 : sound - 1;
    if (draw_percent(&run->chance, 60) && run->session.variables % 8 != 0)
        bytes[sound - 1] &= (uint8_t)((1u << (run->session.variables % 8)) - 1);
    make_record(run, KIND_JUDGE, bytes, length);
}

static void faulty_number(struct run *run, uint32_t kind)
{
    static const uint32_t numbers[] = { 0, 1, 2000, 2001, UINT32_MAX, 65536, 4096 };
    struct draft draft;

    memset(&draft, 0, sizeof draft);
    draft.kind = kind;
    draft.number = numbers[draw_below(&run->chance, sizeof numbers / sizeof *numbers)];
    if (kind == KIND_CORE && draw_percent(&run->chance, 60))
        draft.number = draw_below(&run->chance, run->session.derived + 2);
    if (draw_percent(&run->chance, 20))
        bad_form(run, &draft);
    make_draft(run, &draft);
}

static void unknown_kind(struct run *run)
{
    uint32_t kind = draw_percent(&run->chance, 50) ? 0 : draw_between(&run->chance, 7, 65535);
    uint32_t length = draw_below(&run->chance, 9);
    make_record(run, kind, "abcdefgh", length);
}

static void faulty_record(struct run *run, uint32_t fault_percent)
{
    uint32_t choice = draw_below(&run->chance, 20);

    if (choice == 0)
        unknown_kind(run);
    else if (choice == 1)
        faulty_number(run, KIND_OPEN);
    else if (choice <= 4)
        faulty_number(run, KIND_CORE);
    else if (choice <= 7 && run->session.opened)
        faulty_judge(run);
    else if (run->session.opened || choice <= 10)
        faulty_clause(run, fault_percent);
}

/* A broken frame, after which nothing is read any more. */
static void break_frame(struct run *run)
{
    static const uint32_t lengths[] = { 0, 1, 4097, 65538, UINT32_MAX, 50 };
    uint32_t choice = draw_below(&run->chance, 8);

    if (choice < sizeof lengths / sizeof *lengths) {
        put_4(run->out, lengths[choice]);
        put_4(run->out, 1);
    } else {
        for (uint32_t count = draw_between(&run->chance, 1, 3); count > 0; count--)
            put_1(run->out, 0);
    }
    if (draw_percent(&run->chance, 50))
        put_open(run->out, 3);
}

/* Some content to refuse things against, cores that have been used among it. */
static void furnish(struct run *run)
{
    static const int32_t pair[2] = { 1, 2 };
    static const int32_t unwanted[2] = { -1, -2 };
    struct hint hints[3] = { wish_hint(0), wish_hint(1), rule_hint(0) };
    int32_t members[2] = { wish_variable(0), wish_variable(1) };
    int32_t mixed[2] = { 1, wish_variable(0) };

    make_open(run, draw_between(&run->chance, 2, 150));
    make_rule(run, pair, 2);
    make_wish(run, draw_between(&run->chance, 1, 3), unwanted, 1);
    make_wish(run, draw_between(&run->chance, 1, 3), unwanted + 1, 1);
    make_derive(run, members, 2, hints, 3);
    make_derive(run, pair, 2, hints + 2, 1);
    mixed[0] = -1;
    make_derive(run, mixed, 2, hints, 1);
    make_core(run, draw_below(&run->chance, 4));
}

static void refuse_much(struct run *run, uint32_t fault_percent, uint32_t records)
{
    for (uint32_t before = draw_below(&run->chance, 5); before > 0 && !run->session.opened;
         before--)
        faulty_record(run, fault_percent);
    furnish(run);
    if (draw_percent(&run->chance, 10))
        make_rule(run, &(int32_t){ 0 }, 0);
    while (records-- > 0)
        faulty_record(run, fault_percent);
    if (draw_percent(&run->chance, 60))
        break_frame(run);
}

void generate_refusals(struct run *run)
{
    refuse_much(run, 8, draw_between(&run->chance, 20, 80));
}

/* With half of the faults in each record, and by chance with a full rule
 * room, so that 23 stands behind the others. */
void generate_several(struct run *run)
{
    if (draw_percent(&run->chance, 30)) {
        make_open(run, 100);
        for (uint32_t rule = 0; rule < RULE_ROOM; rule++)
            make_rule(run, (int32_t[]){ (int32_t)draw_between(&run->chance, 1, 100) }, 1);
    }
    uint32_t fault_percent = draw_between(&run->chance, 25, 60);
    refuse_much(run, fault_percent, draw_between(&run->chance, 20, 120));
}
