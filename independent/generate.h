/* The seeded generators: runs of records and older WCNF texts. The same seed
 * and kind give the same bytes on every machine. */
#ifndef GENERATE_H
#define GENERATE_H

#include <stdbool.h>
#include <stdint.h>
#include <stdio.h>

#include "bytes.h"
#include "chance.h"
#include "run.h"

/* Kind NULL lets the seed choose. False when there is no such kind. */
bool generate_records(uint64_t seed, const char *kind, struct bytes *out);
bool generate_text(uint64_t seed, const char *kind, struct bytes *out);
void list_records_kinds(FILE *file, const char *before);
void list_text_kinds(FILE *file, const char *before);

/* A rule that one of m things is needed and a price for each of them; the
 * core over all the prices makes a counter over m inputs. Returns its number. */
uint32_t make_counter(struct run *run, uint32_t inputs, bool even_weights);

/* Shows that chosen inputs of a counter together make a root output true.
 * Asking for one output more must be refused. */
void count_chosen(struct run *run, uint32_t counter);

/* Shows the first output of a counter's root, true wherever the rules are met,
 * and tries it as a core: it has no weight and must be refused. */
void try_first_output(struct run *run, uint32_t counter);

/* The kinds of runs; each writes a whole run from its opening on. */
void generate_honest(struct run *run);
void generate_cover(struct run *run);
void generate_rack(struct run *run);
void generate_deep(struct run *run);
void generate_wide(struct run *run);
void generate_unsatisfiable(struct run *run);
void generate_twisted(struct run *run);
void generate_counters(struct run *run);
void generate_forest(struct run *run);
void generate_rule_room(struct run *run);
void generate_rule_literal_room(struct run *run);
void generate_wish_room(struct run *run);
void generate_wish_literal_room(struct run *run);
void generate_derived_room(struct run *run);
void generate_derived_literal_room(struct run *run);
void generate_counter_room(struct run *run);
void generate_greatest_bound(struct run *run);
void generate_long_derivations(struct run *run);
void generate_refusals(struct run *run);
void generate_several(struct run *run);
void generate_tiny(struct run *run);
void generate_mixed(struct run *run);
void generate_damaged(struct run *run);
void generate_scrambled(struct run *run);
void generate_noise(struct run *run);
void generate_heavy_rules(struct run *run);
void generate_heavy_judgings(struct run *run);
void generate_heavy_derivations(struct run *run);

#endif
