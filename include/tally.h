/* The verified tally for C and C++: one record to one answer, over a session
 * that the caller keeps, and a sheet's text to records. The library is
 * target/staticlib/libtally.a, which `make library` proves and builds; it
 * is for x86-64 Linux, uses no heap, no global variable and no system call, and
 * needs nothing but memcpy and memset of the C library.
 *
 * A program needs one declaration and no call to start:
 *
 *     static struct tally_session session;
 *     const int32_t open[] = { 3 };
 *     tally_record(&session, TALLY_OPEN, open, sizeof open);
 *
 * What is proved, for every session that was started and then only handed to
 * these functions: the reply is the one that the description gives, and so is
 * what the session holds afterwards. Nothing but these functions may write to
 * it; reading is free. Sessions share nothing, so each thread may have its
 * own. Nothing checks this file against the proved source: the order of the
 * fields and parameters and the sizes below are those of
 * crates/tally_c/src/lib.rt. */
#ifndef TALLY_H
#define TALLY_H

#include <stddef.h>
#include <stdint.h>
#include <string.h>

#if !defined(__BYTE_ORDER__) || __BYTE_ORDER__ != __ORDER_LITTLE_ENDIAN__
#error "the tally is for little-endian machines"
#endif

#ifdef __cplusplus
extern "C" {
#endif

/* The sizes of the rooms. */
enum {
    TALLY_RULE_LITERALS = 16384,
    TALLY_RULES = 2048,
    TALLY_WISH_LITERALS = 8192,
    TALLY_WISHES = 512,
    TALLY_DERIVED_LITERALS = 16384,
    TALLY_DERIVED = 4096,
    TALLY_COUNTER_INPUTS = 8192,
    TALLY_COUNTERS = 128,
    TALLY_COUNTER_OUTPUTS = 8192,
    TALLY_LOW_VALUES = 4001,
    TALLY_HIGH_VALUES = 65536
};

/* The tally: n, which is 0 before the opening, the counts of the four
 * families, and the bound. */
struct tally_counts {
    uint32_t variables;
    uint32_t rules;
    uint32_t wishes;
    uint32_t derived;
    uint32_t counters;
    uint32_t bound;
};

/* A session is the tally and its rooms, 330,172 bytes: declare it static or
 * take it from the heap. All zeros is a fresh one. */
struct tally_session {
    struct tally_counts counts;
    /* Clause k of a family is the stretch of its literals from ends[k - 1],
     * or 0 where k is 0, to ends[k]; what is unused is 0. */
    int32_t rules[TALLY_RULE_LITERALS];
    uint32_t rule_ends[TALLY_RULES];
    int32_t wishes[TALLY_WISH_LITERALS];
    uint32_t wish_ends[TALLY_WISHES];
    uint32_t wish_weights[TALLY_WISHES];
    int32_t derived[TALLY_DERIVED_LITERALS];
    uint32_t derived_ends[TALLY_DERIVED];
    int32_t inputs[TALLY_COUNTER_INPUTS];
    uint32_t counter_ends[TALLY_COUNTERS];
    /* Remaining weights: of wish j at j, of output t of counter c at
     * 64 * c + t - 1. */
    uint32_t left[TALLY_WISHES];
    uint32_t outputs[TALLY_COUNTER_OUTPUTS];
    /* Work rooms, zeros between calls. */
    uint8_t low[TALLY_LOW_VALUES];
    uint8_t high[TALLY_HIGH_VALUES];
};

/* The number of an answer and its two values. The number is 0 for a step that
 * was taken, 1 for an arrangement that is best, and a refusal otherwise. */
struct tally_reply {
    uint32_t number;
    uint32_t first;
    uint32_t second;
};

/* The kinds of records, with the payload and what is replied where the record
 * is taken. Every number of a payload has 4 bytes, so that an array of
 * int32_t is one.
 *   open     n                                0, n, 0
 *   rule     literals                         0, its number, 0
 *   wish     weight, literals                 0, its number, its variable
 *   derive   number of literals, literals,    0, its number, how many literals
 *            hints, each a TALLY_BY_...
 *   core     number of a derived clause       0, the bound, the weight moved
 *   judge    a bit for each variable, from    1, cost, bound: no arrangement
 *            the lowest bit of the first      that meets the rules is cheaper
 *            byte on, as few bytes as hold    0, cost, bound: cost is greater
 *            them, the spare bits 0           24, lowest broken rule, 0
 * Refusals, the lowest that applies; its values are 0, except with 24:
 *   11  no such kind
 *   12  opened already; or not yet opened, and another kind than open
 *   13  the payload does not have its kind's form
 *   14  n not in 1..2,000
 *   15  weight not in 1..1,000,000
 *   16  more than 64 literals
 *   17  a literal that is 0 or names nothing; in rules and wishes, one that is
 *       not of the problem
 *   18  one variable twice in a clause
 *   19  more than 256 hints, or one that names nothing
 *   20  the hints do not show the clause
 *   21  no such derived clause
 *   22  the clause is empty, or a member is negative or has no weight left
 *   23  no room left: 2,048 rules with 16,384 literals, 512 wishes with 8,192,
 *       4,096 derived clauses with 16,384, 128 counters
 *   24  the arrangement breaks a rule
 * A length of the record, and so refusal 10, is the affair of whoever cuts
 * records out of an input. */
enum tally_kind {
    TALLY_OPEN = 1,
    TALLY_RULE = 2,
    TALLY_WISH = 3,
    TALLY_DERIVE = 4,
    TALLY_CORE = 5,
    TALLY_JUDGE = 6
};

/* The hints of a derivation; each stands for two numbers of its payload. */
#define TALLY_BY_RULE(number) 1, (number)
#define TALLY_BY_WISH(number) 2, (number)
#define TALLY_BY_COUNTER(counter, clause) (3 | (counter) << 16), (clause)
#define TALLY_BY_DERIVED(number) 4, (number)

/* The variable of wish j, and variable t, from 0, of counter c. */
#define TALLY_WISH_VARIABLE(j) (2001 + (j))
#define TALLY_COUNTER_VARIABLE(c, t) (4001 + 384 * (c) + (t))

/* The proved function: answers one record, as tally_record does, which is
 * easier to call. Each room has to be an array of the size given, the payload
 * `length` readable bytes, and none of them may overlap another; the payload
 * is not null, even where it is empty. Rooms, counts and payload of any
 * content are safe. A refusal leaves all as it was; what is taken is added to
 * its family's rooms and counted. The work rooms are as before, always. */
struct tally_reply tally_answer(
    struct tally_counts *counts,
    int32_t rules[TALLY_RULE_LITERALS], uint32_t rule_ends[TALLY_RULES],
    int32_t wishes[TALLY_WISH_LITERALS], uint32_t wish_ends[TALLY_WISHES],
    uint32_t wish_weights[TALLY_WISHES],
    int32_t derived[TALLY_DERIVED_LITERALS], uint32_t derived_ends[TALLY_DERIVED],
    int32_t inputs[TALLY_COUNTER_INPUTS], uint32_t counter_ends[TALLY_COUNTERS],
    uint32_t left[TALLY_WISHES], uint32_t outputs[TALLY_COUNTER_OUTPUTS],
    uint8_t low[TALLY_LOW_VALUES], uint8_t high[TALLY_HIGH_VALUES],
    uint32_t kind, const uint8_t *payload, size_t length);

/* What reading a text comes to: 0, the text's length and the length of the
 * records in bytes; or a refusal, the place of the fault as a byte from 0,
 * and 0. */
struct tally_text {
    uint32_t number;
    size_t position;
    size_t length;
};

/* Proved too: a sheet in the older WCNF text to records in a room of `room`
 * bytes, an opening and then a rule or a wish for each clause, and zeros
 * behind them; after a refusal the room is all zeros. A record is its length
 * in 4 bytes, its kind in 2, both little-endian, and its payload, with the
 * length counting kind and payload: examples/sheet.c goes through them. A
 * text is any bytes, and 40,960 bytes of room are enough for every text.
 * Neither pointer is null, and the two do not overlap. Refusals, the first in
 * the text:
 *   30  longer than 16,384 bytes, or no header `p wcnf` with three numbers
 *   14  variables not in 1..2,000
 *   31  a word that is no decimal number, or too large a one
 *   15 to 18  as above, for a clause, at its first byte
 *   32  the text ends inside a clause
 *   33  another number of clauses than the header says
 *   34  the room is too short */
struct tally_text tally_read_text(const uint8_t *text, size_t length, uint8_t *records, size_t room);

/* Makes a session fresh. One that is all zeros already, as a static one is at
 * the program's start, is fresh without it. */
static inline void tally_start(struct tally_session *session)
{
    memset(session, 0, sizeof *session);
}

/* Answers one record. A refusal leaves the session as it was; a judging never
 * changes it; any other record that is taken is added to it, and nothing that
 * it held is removed or gets another number. The payload may be null where it
 * is empty, and must not lie within the session. */
static inline struct tally_reply tally_record(struct tally_session *session, uint32_t kind,
                                              const void *payload, size_t length)
{
    const void *bytes = length == 0 ? (const void *)"" : payload;

    return tally_answer(&session->counts,
                        session->rules, session->rule_ends,
                        session->wishes, session->wish_ends, session->wish_weights,
                        session->derived, session->derived_ends,
                        session->inputs, session->counter_ends,
                        session->left, session->outputs, session->low, session->high,
                        kind, (const uint8_t *)bytes, length);
}

#ifdef __cplusplus
}
#endif

#endif
