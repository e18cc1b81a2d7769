/* The list of the kinds of runs and the choice among them. */
#include "generate.h"

#include <string.h>

static const struct {
    const char *name;
    void (*write)(struct run *run);
    /* How often the seed chooses it; 0 only by name. */
    uint32_t share;
} kinds[] = {
    { "honest", generate_honest, 10 },
    { "cover", generate_cover, 8 },
    { "rack", generate_rack, 8 },
    { "deep", generate_deep, 6 },
    { "wide", generate_wide, 3 },
    { "unsatisfiable", generate_unsatisfiable, 5 },
    { "twisted", generate_twisted, 12 },
    { "counters", generate_counters, 5 },
    { "forest", generate_forest, 3 },
    { "rule-room", generate_rule_room, 1 },
    { "rule-literal-room", generate_rule_literal_room, 1 },
    { "wish-room", generate_wish_room, 1 },
    { "wish-literal-room", generate_wish_literal_room, 1 },
    { "derived-room", generate_derived_room, 1 },
    { "derived-literal-room", generate_derived_literal_room, 1 },
    { "counter-room", generate_counter_room, 1 },
    { "greatest-bound", generate_greatest_bound, 1 },
    { "long-derivations", generate_long_derivations, 1 },
    { "refusals", generate_refusals, 8 },
    { "several", generate_several, 8 },
    { "tiny", generate_tiny, 8 },
    { "mixed", generate_mixed, 10 },
    { "damaged", generate_damaged, 10 },
    { "scrambled", generate_scrambled, 4 },
    { "noise", generate_noise, 3 },
    { "heavy-rules", generate_heavy_rules, 0 },
    { "heavy-judgings", generate_heavy_judgings, 0 },
    { "heavy-derivations", generate_heavy_derivations, 0 }
};

enum { KIND_COUNT = sizeof kinds / sizeof *kinds };

static uint32_t choose(uint64_t seed)
{
    struct chance chance = { ~seed };
    uint32_t sum = 0;

    for (uint32_t kind = 0; kind < KIND_COUNT; kind++)
        sum += kinds[kind].share;
    uint32_t left = draw_below(&chance, sum);
    for (uint32_t kind = 0;; kind++) {
        if (left < kinds[kind].share)
            return kind;
        left -= kinds[kind].share;
    }
}

bool generate_records(uint64_t seed, const char *name, struct bytes *out)
{
    static struct run run;
    uint32_t kind = 0;

    if (name == NULL)
        kind = choose(seed);
    else
        while (kind < KIND_COUNT && strcmp(kinds[kind].name, name) != 0)
            kind++;
    if (kind == KIND_COUNT)
        return false;
    run_begin(&run, seed, out);
    kinds[kind].write(&run);
    return true;
}

void list_records_kinds(FILE *file, const char *before)
{
    for (uint32_t kind = 0; kind < KIND_COUNT; kind++)
        fprintf(file, "%s%s\n", before, kinds[kind].name);
}
