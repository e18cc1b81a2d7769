/* The fixed sizes of a session, in one place. Every limit that a refusal
 * speaks about is named here, so that the rest of the program carries no
 * bare numbers of its own. */
#ifndef SIZES_H
#define SIZES_H

enum {
    PROBLEM_VARIABLES = 2000,
    CLAUSE_LITERALS = 64,
    GREATEST_WEIGHT = 1000000,
    DERIVATION_HINTS = 256,

    RULE_ROOM = 2048,
    RULE_LITERAL_ROOM = 16384,
    WISH_ROOM = 512,
    WISH_LITERAL_ROOM = 8192,
    DERIVED_ROOM = 4096,
    DERIVED_LITERAL_ROOM = 16384,
    COUNTER_ROOM = 128,

    COUNTER_INPUTS = 64,
    COUNTER_STRIDE = 384,

    FIRST_WISH_VARIABLE = 2001,
    FIRST_COUNTER_VARIABLE = 4001,
    /* One past the greatest variable that can ever be named. */
    VARIABLE_END = FIRST_COUNTER_VARIABLE + COUNTER_STRIDE * COUNTER_ROOM,

    RECORD_LEAST = 2,
    RECORD_GREATEST = 4096,
    PAYLOAD_GREATEST = RECORD_GREATEST - 2,
    LENGTH_BYTES = 4,
    FRAMED_GREATEST = RECORD_GREATEST + LENGTH_BYTES,

    TEXT_GREATEST = 16384
};

/* The refusals, by the number that is given back. */
enum refusal {
    ACCEPTED = 0,
    BAD_FRAME = 10,
    BAD_KIND = 11,
    BAD_MOMENT = 12,
    BAD_FORM = 13,
    BAD_VARIABLE_COUNT = 14,
    BAD_WEIGHT = 15,
    TOO_MANY_LITERALS = 16,
    BAD_LITERAL = 17,
    REPEATED_VARIABLE = 18,
    BAD_HINT = 19,
    NOT_SHOWN = 20,
    NO_SUCH_DERIVED = 21,
    NOT_A_CORE = 22,
    NO_ROOM = 23,
    RULE_BROKEN = 24,
    BAD_HEADER = 30,
    BAD_WORD = 31,
    OPEN_CLAUSE = 32,
    BAD_CLAUSE_COUNT = 33,
    OUTPUT_TOO_SHORT = 34
};

#endif
