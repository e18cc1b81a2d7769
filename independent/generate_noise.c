/* Runs without a plan: tiny ones, mixtures of near-sound records, damaged
 * sound runs, framed nonsense, and plain random bytes. */
#include "generate.h"

#include <string.h>

/* One random record, most of its numbers naming something. */
static void any_record(struct run *run, uint32_t longest)
{
    struct chance *chance = &run->chance;
    int32_t literals[CLAUSE_LITERALS];
    struct hint hints[8];
    uint32_t count = draw_below(chance, longest + 1);
    uint32_t hint_count = draw_below(chance, 5);
    uint32_t choice = draw_below(chance, 100);

    for (uint32_t place = 0; place < count; place++)
        literals[place] = draw_literal(run);
    for (uint32_t place = 0; place < hint_count; place++)
        hints[place] = draw_hint(run);
    if (choice < 10 || choice >= 95) {
        if (choice < 10 && count > run->session.variables)
            count = run->session.variables;
        if (choice < 10)
            draw_clause(run, literals, count, 50);
        make_rule(run, literals, count);
    } else if (choice < 25) {
        if (count > run->session.variables)
            count = run->session.variables;
        draw_clause(run, literals, count, 50);
        make_wish(run, draw_below(chance, 12), literals, count);
    } else if (choice < 70) {
        make_derive(run, literals, count, hints, hint_count);
    } else if (choice < 85) {
        make_core(run, draw_below(chance, run->session.derived + 1));
    } else if (choice < 94 && run->session.opened) {
        make_random_judge(run);
    } else {
        make_open(run, draw_below(chance, 4));
    }
}

/* Shows some clause by itself: a cheap way to a rich store of clauses. */
static void restate(struct run *run)
{
    struct hint hint = draw_hint(run);
    int32_t literals[CLAUSE_LITERALS + 1];

    if (!hint_is_named(&run->session, hint))
        return;
    uint32_t count = hint_clause(&run->session, hint, literals);
    if (count > 0 && draw_percent(&run->chance, 30))
        count--;
    make_derive(run, literals, count, &hint, 1);
}

void generate_mixed(struct run *run)
{
    uint32_t records = draw_between(&run->chance, 30, 400);
    uint32_t longest = draw_between(&run->chance, 1, 4);

    make_open(run, draw_between(&run->chance, 1, 5));
    while (records-- > 0) {
        if (draw_percent(&run->chance, 15))
            restate(run);
        else
            any_record(run, longest);
    }
}

void generate_tiny(struct run *run)
{
    uint32_t records = draw_below(&run->chance, 6);

    if (draw_percent(&run->chance, 70))
        make_open(run, draw_between(&run->chance, 0, 3));
    while (records-- > 0)
        any_record(run, 2);
    for (uint32_t count = draw_percent(&run->chance, 20) ? draw_below(&run->chance, 8) : 0;
         count > 0; count--)
        put_1(run->out, draw_percent(&run->chance, 70) ? 0 : (uint32_t)draw(&run->chance));
}

void generate_noise(struct run *run)
{
    for (uint32_t count = draw_below(&run->chance, 400); count > 0; count--)
        put_1(run->out, (uint32_t)draw(&run->chance));
}

/* Sound frames with senseless contents. */
void generate_scrambled(struct run *run)
{
    uint8_t payload[PAYLOAD_GREATEST];

    if (draw_percent(&run->chance, 70))
        make_open(run, draw_between(&run->chance, 1, PROBLEM_VARIABLES));
    for (uint32_t records = draw_between(&run->chance, 1, 60); records > 0; records--) {
        uint32_t length = draw_percent(&run->chance, 5) ? PAYLOAD_GREATEST
                                                        : draw_below(&run->chance, 40);
        bool small = draw_percent(&run->chance, 60);
        for (uint32_t place = 0; place < length; place++)
            payload[place] = (uint8_t)(small && place % 4 > 0 ? 0 : draw(&run->chance));
        uint32_t kind = draw_below(&run->chance, 8);
        if (draw_percent(&run->chance, 5))
            kind = (uint32_t)draw(&run->chance) & 0xffff;
        make_record(run, kind, payload, length);
    }
}

static void damage(struct chance *chance, const struct bytes *sound, struct bytes *out)
{
    uint32_t length = (uint32_t)sound->length;
    uint32_t kind = draw_below(chance, 6);
    uint32_t place = draw_below(chance, length);
    uint32_t more = draw_between(chance, 1, 12);
    uint32_t end = place + more < length ? place + more : length;

    put_all(out, sound->data, place);
    switch (kind) {
    case 0: /* one bit */
        put_1(out, sound->data[place] ^ 1u << draw_below(chance, 8));
        place++;
        break;
    case 1: /* another byte */
        put_1(out, (uint32_t)draw(chance));
        place++;
        break;
    case 2: /* bytes put in */
        while (more-- > 0)
            put_1(out, draw_percent(chance, 50) ? 0 : (uint32_t)draw(chance));
        break;
    case 3: /* bytes taken out */
        place = end;
        break;
    case 4: /* a stretch twice */
        put_all(out, sound->data + place, end - place);
        break;
    default: /* nothing behind here */
        place = length;
        break;
    }
    put_all(out, sound->data + place, length - place);
}

/* Bits turned over inside payloads only, so that the framing stays sound and
 * the run goes on. The opening is spared: another n would spoil all the rest. */
static void damage_payloads(struct chance *chance, struct bytes *out, size_t start)
{
    uint32_t every = draw_between(chance, 2, 40);

    while (start + LENGTH_BYTES + RECORD_LEAST <= out->length) {
        uint32_t length = get_4(out->data + start);
        if (length < RECORD_LEAST || length > out->length - start - LENGTH_BYTES)
            return;
        bool opening = get_2(out->data + start + LENGTH_BYTES) == KIND_OPEN;
        if (length > RECORD_LEAST && !opening && draw_below(chance, every) == 0) {
            uint32_t place = draw_between(chance, RECORD_LEAST, length - 1);
            uint8_t bit = (uint8_t)(1u << draw_below(chance, draw_percent(chance, 70) ? 3 : 8));
            out->data[start + LENGTH_BYTES + place] ^= bit;
        }
        start += LENGTH_BYTES + (size_t)length;
    }
}

void generate_damaged(struct run *run)
{
    static void (*const shapes[])(struct run *) = {
        generate_honest, generate_cover, generate_rack, generate_unsatisfiable,
        generate_mixed, generate_deep, generate_refusals
    };
    size_t start = run->out->length;

    shapes[draw_below(&run->chance, sizeof shapes / sizeof *shapes)](run);
    if (draw_percent(&run->chance, 50)) {
        damage_payloads(&run->chance, run->out, start);
        return;
    }
    for (uint32_t times = draw_between(&run->chance, 1, 4); times > 0; times--) {
        struct bytes sound = { NULL, 0, 0 };
        if (run->out->length == start)
            return;
        put_all(&sound, run->out->data + start, run->out->length - start);
        run->out->length = start;
        damage(&run->chance, &sound, run->out);
        bytes_free(&sound);
    }
}
