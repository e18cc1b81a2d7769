/* The telling of a run: words for an answered record, from its bytes and the
 * session behind it. The answers are those of a plain run. */
#include "explain.h"

#include <string.h>

#include "counter.h"
#include "script.h"

enum { COLUMN = 24, ARRANGEMENT_SHOWN = 64 };

static const char *const kind_words[] = { "", "open", "rule", "wish", "derive", "core", "judge" };

const char *sheet_fault_words(uint32_t number)
{
    switch (number) {
    case BAD_VARIABLE_COUNT: return "the number of variables is not 1 to 2000";
    case BAD_WEIGHT: return "the weight of this wish is not 1 to 1000000";
    case TOO_MANY_LITERALS: return "this clause has more than 64 literals";
    case BAD_LITERAL: return "this clause has a literal above the number of variables";
    case REPEATED_VARIABLE: return "this clause has one variable twice";
    case BAD_HEADER: return "the text is longer than 16384 bytes, or its header "
                            "\"p wcnf VARIABLES CLAUSES TOP\" is missing or malformed";
    case BAD_WORD: return "this word is not a decimal number, or it is too large; a minus "
                          "sign may stand before literals only";
    case OPEN_CLAUSE: return "the text ends inside a clause, before its 0";
    case BAD_CLAUSE_COUNT: return "the number of clauses is not the one in the header";
    case OUTPUT_TOO_SHORT: return "the room for the records is too short";
    default: return "unknown number";
    }
}

static void say_numbered(struct sink *sink, const char *before, int64_t number, const char *after)
{
    sink_text(sink, before);
    sink_number(sink, number);
    sink_text(sink, after);
}

static void say_clause(struct sink *sink, const int32_t *literals, uint32_t count)
{
    if (count == 0)
        sink_text(sink, "the empty clause");
    else
        say_literals(sink, literals, count);
}

static void say_judged(struct sink *sink, const uint8_t *arrangement, uint32_t variables)
{
    uint32_t shown = variables < ARRANGEMENT_SHOWN ? variables : ARRANGEMENT_SHOWN;
    sink_text(sink, "judge ");
    say_arrangement(sink, arrangement, shown);
    sink_text(sink, shown < variables ? "...: " : ": ");
}

static void say_core(struct sink *sink, const struct session *session,
                     uint32_t number, struct answer answer)
{
    struct stretch members = derived_clause(session, number);

    say_numbered(sink, "core ", number, ": ");
    say_numbered(sink, "bound is now ", answer.first, ", ");
    say_numbered(sink, members.count == 1 ? "its one member lowered by "
                                          : "each member lowered by ", answer.second, "; ");
    if (members.count == 1) {
        sink_text(sink, "no counter");
        return;
    }
    say_numbered(sink, "counter ", session->counters - 1, "");
    say_numbered(sink, " over ", members.count, " inputs");
}

static void say_accepted(struct sink *sink, const struct session *session, uint32_t kind,
                         const struct parts *parts, struct answer answer)
{
    switch (kind) {
    case KIND_OPEN:
        say_numbered(sink, "open: a session over ", answer.first, " variables");
        return;
    case KIND_RULE:
        say_numbered(sink, "rule ", answer.first, ": ");
        say_clause(sink, parts->literals, parts->count);
        return;
    case KIND_WISH:
        say_numbered(sink, "wish ", answer.first, "");
        say_numbered(sink, " of weight ", parts->number, ": ");
        say_clause(sink, parts->literals, parts->count);
        say_numbered(sink, "; variable ", answer.second, " is true when it is broken");
        return;
    case KIND_DERIVE:
        say_numbered(sink, "derived ", answer.first, ": ");
        say_clause(sink, parts->literals, parts->count);
        say_numbered(sink, ", shown by ", parts->hint_count,
                     parts->hint_count == 1 ? " hint" : " hints");
        if (parts->count == 0)
            sink_text(sink, "; no arrangement meets the rules");
        return;
    default:
        say_core(sink, session, parts->number, answer);
        return;
    }
}

static void say_verdict(struct sink *sink, const struct session *session, struct answer answer)
{
    if (answer.number == BEST) {
        say_numbered(sink, "best, cost ", answer.first, " equals the bound");
    } else if (answer.number == COUNTED) {
        say_numbered(sink, "counted, cost ", answer.first, " is above the bound ");
        sink_number(sink, answer.second);
    } else {
        struct stretch rule = rule_clause(session, answer.first);
        say_numbered(sink, "refused, rule ", answer.first, " is broken: ");
        say_clause(sink, rule.literals, rule.count);
    }
}

static void say_bad_literal(struct sink *sink, const struct session *session, uint32_t kind,
                            const struct parts *parts)
{
    for (uint32_t place = 0; place < parts->count; place++) {
        uint32_t size = literal_size(parts->literals[place]);
        bool fits = kind == KIND_DERIVE ? variable_is_named(session, size)
                                        : size >= 1 && size <= session->variables;
        if (!fits) {
            say_numbered(sink, "literal ", parts->literals[place], " names nothing here");
            return;
        }
    }
}

static void say_repeated(struct sink *sink, const struct parts *parts)
{
    for (uint32_t place = 0; place < parts->count; place++)
        for (uint32_t before = 0; before < place; before++)
            if (literal_size(parts->literals[place]) == literal_size(parts->literals[before])) {
                say_numbered(sink, "variable ", literal_size(parts->literals[place]),
                             " stands twice");
                return;
            }
}

static void say_bad_hint(struct sink *sink, const struct session *session,
                         const struct parts *parts)
{
    if (parts->hint_count > DERIVATION_HINTS) {
        say_numbered(sink, "", parts->hint_count, " hints are more than 256");
        return;
    }
    for (uint32_t place = 0; place < parts->hint_count; place++)
        if (!hint_is_named(session, parts->hints[place])) {
            struct hint hint = parts->hints[place];
            say_numbered(sink, "hint ", place + 1, " names nothing");
            say_numbered(sink, " (family ", hint.family, "");
            say_numbered(sink, ", first ", hint.first, "");
            say_numbered(sink, ", second ", hint.second, ")");
            return;
        }
}

static void say_no_core(struct sink *sink, const struct session *session, uint32_t number)
{
    struct stretch members = derived_clause(session, number);

    if (members.count == 0)
        sink_text(sink, "the clause is empty");
    for (uint32_t place = 0; place < members.count; place++) {
        int32_t member = members.literals[place];
        if (member < 0 || session->remaining[member] == 0) {
            say_numbered(sink, "member ", member,
                         member < 0 ? " is negative" : " has no weight left");
            return;
        }
    }
}

static void say_no_room(struct sink *sink, uint32_t kind)
{
    static const char *const rooms[] = {
        "", "", "the room for 2048 rules with 16384 literals is full",
        "the room for 512 wishes with 8192 literals is full",
        "the room for 4096 derived clauses with 16384 literals is full",
        "the room for 128 counters is full"
    };
    sink_text(sink, rooms[kind]);
}

static void say_refused(struct sink *sink, const struct session *session, uint32_t kind,
                        const struct parts *parts, uint32_t number)
{
    switch (number) {
    case BAD_VARIABLE_COUNT:
        say_numbered(sink, "", parts->number, " variables are not 1 to 2000");
        return;
    case BAD_WEIGHT:
        say_numbered(sink, "weight ", parts->number, " is not 1 to 1000000");
        return;
    case TOO_MANY_LITERALS:
        say_numbered(sink, "", parts->count, " literals are more than 64");
        return;
    case BAD_LITERAL:
        say_bad_literal(sink, session, kind, parts);
        return;
    case REPEATED_VARIABLE:
        say_repeated(sink, parts);
        return;
    case BAD_HINT:
        say_bad_hint(sink, session, parts);
        return;
    case NOT_SHOWN:
        sink_text(sink, "its hints, in this order, do not lead to it");
        return;
    case NO_SUCH_DERIVED:
        say_numbered(sink, "there is no derived clause ", parts->number, "");
        return;
    case NOT_A_CORE:
        say_no_core(sink, session, parts->number);
        return;
    default:
        say_no_room(sink, kind);
        return;
    }
}

/* Refusals that come before the payload has been cut into parts. */
static bool say_early_refusal(struct sink *sink, uint32_t kind, uint32_t number)
{
    if (number == BAD_KIND) {
        say_numbered(sink, "refused, kind ", kind, " is not 1 to 6");
        return true;
    }
    if (number != BAD_MOMENT && number != BAD_FORM)
        return false;
    sink_text(sink, kind_words[kind]);
    if (number == BAD_FORM)
        sink_text(sink, kind == KIND_JUDGE
                  ? ": refused, not exactly one bit for each variable and zeros behind them"
                  : ": refused, the payload does not have this kind's form");
    else
        sink_text(sink, kind == KIND_OPEN ? ": refused, the session is open already"
                                          : ": refused, no session is open yet");
    return true;
}

static void say_meaning(struct sink *sink, const struct session *session,
                        const uint8_t *record, uint32_t length, struct answer answer)
{
    static struct parts parts;
    uint32_t kind = get_2(record);

    if (say_early_refusal(sink, kind, answer.number))
        return;
    if (kind == KIND_JUDGE) {
        say_judged(sink, record + 2, session->variables);
        say_verdict(sink, session, answer);
        return;
    }
    cut_payload(kind, record + 2, length - 2, &parts);
    if (answer.number == ACCEPTED) {
        say_accepted(sink, session, kind, &parts, answer);
        return;
    }
    sink_text(sink, kind_words[kind]);
    if (kind == KIND_CORE)
        say_numbered(sink, " ", parts.number, "");
    sink_text(sink, ": refused, ");
    say_refused(sink, session, kind, &parts, answer.number);
}

static void say_line(struct sink *sink, const struct answered *answered)
{
    char text[LINE_BYTES];
    size_t length = line_text(text, answered);

    sink_bytes(sink, text, length);
    do
        sink_text(sink, " ");
    while (++length < COLUMN);
}

static const char *broken_frame_words(struct source *source)
{
    const uint8_t *bytes;
    size_t count = source_rest(source, &bytes);

    if (count < LENGTH_BYTES)
        return "the run ends: the input ends inside a record's length";
    uint32_t said = get_4(bytes);
    if (said < RECORD_LEAST || said > RECORD_GREATEST)
        return "the run ends: the record's length is not 2 to 4096";
    return "the run ends: the input ends inside a record";
}

static void tell_meaning(struct sink *sink, const struct answered *answered)
{
    say_line(sink, answered);
    if (answered->answer.number == BAD_FRAME)
        sink_text(sink, broken_frame_words(answered->source));
    else
        say_meaning(sink, answered->session, answered->record, answered->length,
                    answered->answer);
    sink_text(sink, "\n");
}

void explain_records(struct source *source, struct sink *sink)
{
    tell_records(source, sink, tell_meaning);
}
