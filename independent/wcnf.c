/* The reader of the older WCNF text. It goes through the bytes once. Skipping
 * of blanks and of comment lines hand over to one another; a word is a run of
 * bytes that are no blanks. Records are counted even when they no longer fit,
 * because a room too short is only refused once everything else is in order. */
#include "wcnf.h"

#include <stdbool.h>
#include <string.h>

#include "records.h"

struct reader {
    const uint8_t *text;
    size_t length;
    size_t at;
    uint8_t *room;
    size_t room_length;
    size_t written;
    uint32_t variables;
    uint32_t clauses;
    uint32_t top;
    uint64_t clauses_read;
    /* The clause under way. All literals are counted, but only as many as a
     * clause may have are kept. */
    uint32_t weight;
    size_t clause_position;
    uint64_t count;
    int32_t literals[CLAUSE_LITERALS];
    /* Fault 17 may sit behind the kept literals, yet 16 comes first then. */
    bool literal_out_of_range;
    /* Which clause last used a variable, so that nothing is ever cleared. */
    uint32_t used_by[PROBLEM_VARIABLES + 1];
};

struct fault {
    uint32_t number;
    size_t position;
};

static struct fault fault_at(enum refusal number, size_t position)
{
    struct fault fault = { (uint32_t)number, position };
    return fault;
}

static const struct fault no_fault = { ACCEPTED, 0 };

static bool is_blank_in_line(uint8_t byte)
{
    return byte == ' ' || byte == '\t' || byte == '\r';
}

static bool is_blank(uint8_t byte)
{
    return byte == '\n' || is_blank_in_line(byte);
}

static bool at_end(const struct reader *reader)
{
    return reader->at == reader->length;
}

static bool at_line_start(const struct reader *reader)
{
    return reader->at == 0 || reader->text[reader->at - 1] == '\n';
}

static void skip_blanks(struct reader *reader);

/* Only the very first byte of a line makes a comment of it. Behind the
 * comment stands its line end, so the blanks take over again. */
static void skip_comments(struct reader *reader)
{
    if (at_end(reader) || reader->text[reader->at] != 'c' || !at_line_start(reader))
        return;
    while (!at_end(reader) && reader->text[reader->at] != '\n')
        reader->at++;
    skip_blanks(reader);
}

static void skip_blanks(struct reader *reader)
{
    while (!at_end(reader) && is_blank(reader->text[reader->at]))
        reader->at++;
    skip_comments(reader);
}

/* The end of the word that starts here. */
static size_t word_end(const struct reader *reader)
{
    size_t end = reader->at;
    while (end < reader->length && !is_blank(reader->text[end]))
        end++;
    return end;
}

/* The value of the digits from start to end; false when there are none, when
 * another byte stands among them or when the value passes the limit. */
static bool decimal(const struct reader *reader, size_t start, size_t end,
                    uint32_t limit, uint32_t *value)
{
    uint64_t sum = 0;
    if (start == end)
        return false;
    for (size_t place = start; place < end; place++) {
        uint8_t byte = reader->text[place];
        if (byte < '0' || byte > '9')
            return false;
        sum = sum * 10 + (uint64_t)(byte - '0');
        if (sum > limit)
            return false;
    }
    *value = (uint32_t)sum;
    return true;
}

/* One number of the header, behind at least one blank of the same line. */
static bool header_number(struct reader *reader, uint32_t *value, size_t *position)
{
    size_t before = reader->at;
    while (!at_end(reader) && is_blank_in_line(reader->text[reader->at]))
        reader->at++;
    if (reader->at == before)
        return false;
    size_t end = word_end(reader);
    *position = reader->at;
    if (!decimal(reader, reader->at, end, UINT32_MAX, value))
        return false;
    reader->at = end;
    return true;
}

static struct fault read_header(struct reader *reader)
{
    static const char opening[6] = { 'p', ' ', 'w', 'c', 'n', 'f' };
    size_t variables_position;
    size_t unused;

    skip_blanks(reader);
    if (reader->length - reader->at < sizeof opening ||
        memcmp(reader->text + reader->at, opening, sizeof opening) != 0)
        return fault_at(BAD_HEADER, 0);
    reader->at += sizeof opening;
    if (!header_number(reader, &reader->variables, &variables_position) ||
        !header_number(reader, &reader->clauses, &unused) ||
        !header_number(reader, &reader->top, &unused))
        return fault_at(BAD_HEADER, 0);
    while (!at_end(reader) && is_blank_in_line(reader->text[reader->at]))
        reader->at++;
    if (!at_end(reader) && reader->text[reader->at] != '\n')
        return fault_at(BAD_HEADER, 0);
    if (reader->variables < 1 || reader->variables > PROBLEM_VARIABLES)
        return fault_at(BAD_VARIABLE_COUNT, variables_position);
    return no_fault;
}

static void put_byte(struct reader *reader, uint32_t byte)
{
    if (reader->written < reader->room_length)
        reader->room[reader->written] = (uint8_t)byte;
    reader->written++;
}

static void put_number(struct reader *reader, uint32_t number, uint32_t bytes)
{
    for (uint32_t place = 0; place < bytes; place++)
        put_byte(reader, number >> (8 * place) & 0xff);
}

static void write_open(struct reader *reader)
{
    put_number(reader, 6, 4);
    put_number(reader, KIND_OPEN, 2);
    put_number(reader, reader->variables, 4);
}

static void write_clause(struct reader *reader)
{
    bool rule = reader->weight == reader->top;
    uint32_t count = (uint32_t)reader->count;

    put_number(reader, (rule ? 2u : 6u) + 4 * count, 4);
    put_number(reader, rule ? KIND_RULE : KIND_WISH, 2);
    if (!rule)
        put_number(reader, reader->weight, 4);
    for (uint32_t place = 0; place < count; place++)
        put_number(reader, (uint32_t)reader->literals[place], 4);
}

/* Refusals 15 to 18, the lowest first, once the clause's 0 has been read. */
static enum refusal check_clause(struct reader *reader)
{
    uint32_t stamp = (uint32_t)reader->clauses_read + 1;

    if (reader->weight != reader->top &&
        (reader->weight < 1 || reader->weight > GREATEST_WEIGHT))
        return BAD_WEIGHT;
    if (reader->count > CLAUSE_LITERALS)
        return TOO_MANY_LITERALS;
    if (reader->literal_out_of_range)
        return BAD_LITERAL;
    for (uint32_t place = 0; place < reader->count; place++) {
        int32_t literal = reader->literals[place];
        int32_t variable = literal < 0 ? -literal : literal;
        if (reader->used_by[variable] == stamp)
            return REPEATED_VARIABLE;
        reader->used_by[variable] = stamp;
    }
    return ACCEPTED;
}

static void keep_literal(struct reader *reader, uint32_t size, bool negative)
{
    if (size > reader->variables)
        reader->literal_out_of_range = true;
    if (reader->count < CLAUSE_LITERALS)
        reader->literals[reader->count] = negative ? -(int32_t)size : (int32_t)size;
    reader->count++;
}

/* Literals up to and with the 0 that ends them. */
static struct fault read_literals(struct reader *reader)
{
    for (;;) {
        skip_blanks(reader);
        if (at_end(reader))
            return fault_at(OPEN_CLAUSE, reader->length);
        size_t end = word_end(reader);
        bool negative = reader->text[reader->at] == '-';
        uint32_t size;
        if (!decimal(reader, reader->at + negative, end, INT32_MAX, &size) ||
            (negative && size == 0))
            return fault_at(BAD_WORD, reader->at);
        reader->at = end;
        if (size == 0)
            return no_fault;
        keep_literal(reader, size, negative);
    }
}

/* One clause, standing at its weight. */
static struct fault read_clause(struct reader *reader)
{
    size_t end = word_end(reader);

    reader->clause_position = reader->at;
    reader->count = 0;
    reader->literal_out_of_range = false;
    if (!decimal(reader, reader->at, end, UINT32_MAX, &reader->weight))
        return fault_at(BAD_WORD, reader->at);
    reader->at = end;
    struct fault fault = read_literals(reader);
    if (fault.number != ACCEPTED)
        return fault;
    enum refusal refusal = check_clause(reader);
    if (refusal != ACCEPTED)
        return fault_at(refusal, reader->clause_position);
    write_clause(reader);
    reader->clauses_read++;
    return no_fault;
}

static struct fault read_text(struct reader *reader)
{
    if (reader->length > TEXT_GREATEST)
        return fault_at(BAD_HEADER, 0);
    struct fault fault = read_header(reader);
    if (fault.number != ACCEPTED)
        return fault;
    write_open(reader);
    for (skip_blanks(reader); !at_end(reader); skip_blanks(reader)) {
        fault = read_clause(reader);
        if (fault.number != ACCEPTED)
            return fault;
    }
    if (reader->clauses_read != reader->clauses)
        return fault_at(BAD_CLAUSE_COUNT, reader->length);
    if (reader->written > reader->room_length)
        return fault_at(OUTPUT_TOO_SHORT, reader->length);
    return no_fault;
}

struct sheet_answer read_sheet(const uint8_t *text, size_t length,
                               uint8_t *room, size_t room_length)
{
    struct reader reader = { .text = text, .length = length,
                             .room = room, .room_length = room_length };
    struct sheet_answer answer = { ACCEPTED, length, 0 };

    if (room_length > 0)
        memset(room, 0, room_length);
    struct fault fault = read_text(&reader);
    if (fault.number != ACCEPTED) {
        answer.number = fault.number;
        answer.position = fault.position;
        if (room_length > 0)
            memset(room, 0, room_length);
    } else {
        answer.length = reader.written;
    }
    return answer;
}
