/* Long runs for measuring time, chosen only by name. Each loads one step of
 * the tally with the work that a full session gives it. Put behind itself such
 * a run is a longer one: the second opening is refused, and so is, after the
 * whole check of it, what no longer fits. */
#include "generate.h"

enum {
    HEAVY_RULES = 1000000,
    HEAVY_JUDGINGS = 40000,
    HEAVY_DERIVATIONS = 60000,
    /* With clauses of these lengths both rooms of a family are full at once. */
    RULE_LENGTH = RULE_LITERAL_ROOM / RULE_ROOM,
    WISH_LENGTH = WISH_LITERAL_ROOM / WISH_ROOM
};

/* Different variables out of `span` from `first` on, taken in even strides:
 * a walk over all of them would be slow. */
static void draw_strides(struct run *run, int32_t *variables, uint32_t count,
                         uint32_t first, uint32_t span)
{
    uint32_t start = draw_below(&run->chance, span);
    uint32_t stride = draw_between(&run->chance, 1, span / CLAUSE_LITERALS);

    for (uint32_t place = 0; place < count; place++)
        variables[place] = (int32_t)(first + (start + place * stride) % span);
}

/* Rules of 3 to 12 literals. Seven in ten are sound and taken until the room
 * is full; of the others the last literal names nothing or stands twice. */
void generate_heavy_rules(struct run *run)
{
    make_open(run, PROBLEM_VARIABLES);
    for (uint32_t time = 0; time < HEAVY_RULES; time++) {
        int32_t literals[12];
        uint32_t count = draw_between(&run->chance, 3, 12);
        uint32_t choice = draw_below(&run->chance, 20);
        draw_strides(run, literals, count, 1, PROBLEM_VARIABLES);
        for (uint32_t place = 0; place < count; place++)
            if (draw_percent(&run->chance, 50))
                literals[place] = -literals[place];
        if (choice < 3)
            literals[count - 1] = PROBLEM_VARIABLES + 1;
        else if (choice < 6)
            literals[count - 1] = -literals[draw_below(&run->chance, count - 1)];
        make_rule(run, literals, count);
    }
}

/* In the judged arrangements the variables up to this one stand as planned,
 * the odd ones true; the others are true by chance, one in four. */
enum { PLANNED = PROBLEM_VARIABLES / 2 };

/* A clause of which one literal, somewhere, holds as planned. */
static void planned_rule(struct run *run)
{
    int32_t literals[RULE_LENGTH];
    int32_t planned = (int32_t)draw_between(&run->chance, 1, PLANNED);

    draw_strides(run, literals, RULE_LENGTH, PLANNED + 1, PLANNED);
    literals[draw_below(&run->chance, RULE_LENGTH)] = planned % 2 == 1 ? planned : -planned;
    make_rule(run, literals, RULE_LENGTH);
}

static void judge_as_planned(struct run *run)
{
    uint8_t arrangement[PROBLEM_VARIABLES / 8];

    for (uint32_t byte = 0; byte < sizeof arrangement; byte++) {
        uint32_t bits = (uint32_t)draw(&run->chance);
        arrangement[byte] = byte < PLANNED / 8 ? 0x55 : (uint8_t)(bits & bits >> 8 & 0xff);
    }
    make_judge(run, arrangement);
}

/* A full sheet, and arrangements that meet every rule, so that each judging
 * reads all the rules and then all the wishes. */
void generate_heavy_judgings(struct run *run)
{
    int32_t literals[WISH_LENGTH];

    make_open(run, PROBLEM_VARIABLES);
    for (uint32_t rule = 0; rule < RULE_ROOM; rule++)
        planned_rule(run);
    for (uint32_t wish = 0; wish < WISH_ROOM; wish++) {
        draw_strides(run, literals, WISH_LENGTH, PLANNED + 1, PLANNED);
        make_wish(run, draw_between(&run->chance, 1, 1000), literals, WISH_LENGTH);
    }
    for (uint32_t time = 0; time < HEAVY_JUDGINGS; time++)
        judge_as_planned(run);
}

/* Link k leads from variable k to k + 1 unless one of its sides holds. Every
 * link is a rule, one in four a wish besides, and one in eight has been
 * derived. The sides stand in every clause that is to be shown. */
enum {
    LINKS = 1792,
    WISH_LINKS = LINKS / 4,
    DERIVED_LINKS = LINKS / 8,
    FIRST_SIDE = PROBLEM_VARIABLES - WISH_LENGTH,
    SIDES = WISH_LENGTH - 2
};

static void put_link(int32_t *literals, uint32_t link, uint32_t first_side, uint32_t sides)
{
    literals[0] = -(int32_t)link;
    literals[1] = (int32_t)link + 1;
    for (uint32_t side = 0; side < sides; side++)
        literals[2 + side] = (int32_t)(FIRST_SIDE + (first_side + side) % SIDES);
}

static void make_links(struct run *run)
{
    int32_t literals[WISH_LENGTH];

    for (uint32_t link = 1; link <= LINKS; link++) {
        put_link(literals, link, draw_below(&run->chance, SIDES), RULE_LENGTH - 2);
        make_rule(run, literals, RULE_LENGTH);
    }
    for (uint32_t link = 1; link <= WISH_LINKS; link++) {
        put_link(literals, 4 * link, 0, SIDES);
        make_wish(run, draw_between(&run->chance, 1, 1000), literals, WISH_LENGTH);
    }
    for (uint32_t link = 1; link <= DERIVED_LINKS; link++) {
        struct hint hint = rule_hint(8 * link - 3);
        put_link(literals, 8 * link - 2, 0, SIDES);
        make_shown(run, literals, WISH_LENGTH, &hint, 1);
    }
}

/* Shows that a stretch of links leads from its first variable to its last. */
static void follow_links(struct run *run)
{
    struct hint hints[DERIVATION_HINTS];
    int32_t literals[CLAUSE_LITERALS];
    uint32_t length = draw_between(&run->chance, 1, DERIVATION_HINTS);
    uint32_t first = draw_between(&run->chance, 1, LINKS - length);
    uint32_t count = WISH_LENGTH;

    put_link(literals, first, 0, SIDES);
    literals[1] = (int32_t)(first + length);
    for (uint32_t place = 0; place < length; place++) {
        uint32_t link = first + place;
        hints[place] = rule_hint(link - 1);
        if (link % 8 == 6)
            hints[place] = derived_hint((link - 6) / 8);
        if (link % 4 == 0 && count < CLAUSE_LITERALS) {
            hints[place] = wish_hint(link / 4 - 1);
            literals[count++] = wish_variable(link / 4 - 1);
        }
    }
    make_shown(run, literals, count, hints, length);
}

/* Long derivations over links, and one in four over a counter of full width.
 * When the derived room is full they are still checked before 23. */
void generate_heavy_derivations(struct run *run)
{
    make_open(run, PROBLEM_VARIABLES);
    make_links(run);
    uint32_t counter = make_counter(run, WISH_ROOM - WISH_LINKS, true);
    for (uint32_t time = 0; time < HEAVY_DERIVATIONS; time++) {
        if (time % 4 == 3)
            count_chosen(run, counter);
        else
            follow_links(run);
    }
}
