/* A run under way in the generator: the bytes written so far, the chance
 * they are drawn from, and a session that has answered every record, so that
 * a kind always knows the weights, counters and numbers it may speak of. */
#ifndef RUN_H
#define RUN_H

#include "bytes.h"
#include "chance.h"
#include "records.h"
#include "session.h"

struct run {
    struct chance chance;
    struct bytes *out;
    /* How many of a hundred honest derivations are preceded by a spoilt copy. */
    uint32_t twist;
    struct session session;
};

void run_begin(struct run *run, uint64_t seed, struct bytes *out);

struct answer make_open(struct run *run, uint32_t variables);
struct answer make_rule(struct run *run, const int32_t *literals, uint32_t count);
struct answer make_wish(struct run *run, uint32_t weight,
                        const int32_t *literals, uint32_t count);
struct answer make_derive(struct run *run, const int32_t *literals, uint32_t count,
                          const struct hint *hints, uint32_t hint_count);
struct answer make_core(struct run *run, uint32_t number);
struct answer make_judge(struct run *run, const uint8_t *arrangement);
struct answer make_random_judge(struct run *run);

/* A record of any kind with any payload that keeps the framing sound. */
struct answer make_record(struct run *run, uint32_t kind, const void *payload, size_t length);

/* A derivation that must be accepted or find no room; anything else is a
 * fault of this program and ends it. Spoilt copies may go before it. */
struct answer make_shown(struct run *run, const int32_t *literals, uint32_t count,
                         const struct hint *hints, uint32_t hint_count);

struct hint rule_hint(uint32_t number);
struct hint wish_hint(uint32_t number);
struct hint derived_hint(uint32_t number);
struct hint counter_hint(uint32_t counter, uint32_t clause);

/* `count` different variables from 1 to n, each with a sign by chance. */
void draw_clause(struct run *run, int32_t *literals, uint32_t count, uint32_t negative_percent);

/* Some hint, mostly one that names a clause. */
struct hint draw_hint(struct run *run);
/* Some literal, mostly one that names something. */
int32_t draw_literal(struct run *run);

#endif
