/* A small search for conflicts, used only by the generator: it learns
 * clauses from conflicts and can say which clauses, in which order, show
 * each of them by unit propagation. The tally itself never searches. */
#ifndef SEARCH_H
#define SEARCH_H

#include "run.h"

enum found {
    FOUND_ARRANGEMENT, /* the rules are met and no assumption is broken */
    FOUND_CONFLICT,    /* a clause over weighted variables, perhaps empty */
    FOUND_NOTHING      /* a limit was reached */
};

struct conflict {
    uint32_t count;
    uint32_t hint_count;
    int32_t literals[CLAUSE_LITERALS];
    struct hint hints[DERIVATION_HINTS];
};

/* Starts over with all the clauses that the run's session now holds. */
void search_begin(struct run *run);

/* Takes in the clauses that the session has gained since. False when the
 * search's own room is used up. */
bool search_update(void);

/* Assumes every variable with remaining weight to be false and looks for an
 * arrangement; clauses learned on the way are written to the run as derived
 * ones. At most `budget` conflicts. A conflict found may be widened by up to
 * `extra` further weighted variables. */
enum found search_step(uint32_t budget, uint32_t extra,
                       uint8_t arrangement[PROBLEM_VARIABLES / 8],
                       struct conflict *conflict);

#endif
