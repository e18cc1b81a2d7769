/* The disassembler: records to script lines. A record is written in words
 * only if the words lead back to the same bytes; otherwise its bytes follow
 * as they are. Whether an arrangement can be written in digits depends on n,
 * so the first accepted opening is remembered. */
#include "script.h"

#include <string.h>

#include "bytes.h"

enum { BYTES_A_LINE = 32 };

void say_literals(struct sink *sink, const int32_t *literals, uint32_t count)
{
    for (uint32_t place = 0; place < count; place++) {
        if (place > 0)
            sink_text(sink, " ");
        sink_number(sink, literals[place]);
    }
}

void say_hint(struct sink *sink, struct hint hint)
{
    static const char *const families[] = { "", "rule ", "wish ", "counter ", "derived " };

    sink_text(sink, families[hint.family]);
    if (hint.family == FAMILY_COUNTER) {
        sink_number(sink, hint.first);
        sink_text(sink, " clause ");
    }
    sink_number(sink, hint.second);
}

void say_arrangement(struct sink *sink, const uint8_t *arrangement, uint32_t variables)
{
    for (uint32_t bit = 0; bit < variables; bit++)
        sink_text(sink, arrangement[bit / 8] >> (bit % 8) & 1 ? "1" : "0");
}

static void say_hex(struct sink *sink, const char *word, const uint8_t *bytes, size_t count)
{
    static const char digits[] = "0123456789abcdef";

    sink_text(sink, word);
    for (size_t place = 0; place < count; place++) {
        char pair[3] = { ' ', digits[bytes[place] >> 4], digits[bytes[place] & 15] };
        sink_bytes(sink, pair, sizeof pair);
    }
    sink_text(sink, "\n");
}

/* A derivation can be said in words when every hint has one of the four
 * families and a first number only where the words have a place for it. */
static bool hints_have_words(const struct parts *parts)
{
    for (uint32_t place = 0; place < parts->hint_count; place++) {
        struct hint hint = parts->hints[place];
        if (hint.family < FAMILY_RULE || hint.family > FAMILY_DERIVED)
            return false;
        if (hint.family != FAMILY_COUNTER && hint.first != 0)
            return false;
    }
    return true;
}

static void say_derive(struct sink *sink, const struct parts *parts)
{
    sink_text(sink, parts->count > 0 ? "derive " : "derive");
    say_literals(sink, parts->literals, parts->count);
    for (uint32_t place = 0; place < parts->hint_count; place++) {
        sink_text(sink, place == 0 ? " by " : ", ");
        say_hint(sink, parts->hints[place]);
    }
}

static void say_parts(struct sink *sink, uint32_t kind, const struct parts *parts)
{
    static const char *const words[] = { "", "open ", "rule", "wish ", "", "core " };

    if (kind == KIND_DERIVE) {
        say_derive(sink, parts);
        return;
    }
    sink_text(sink, words[kind]);
    if (kind != KIND_RULE)
        sink_number(sink, parts->number);
    if (kind == KIND_RULE || kind == KIND_WISH) {
        sink_text(sink, parts->count > 0 ? " " : "");
        say_literals(sink, parts->literals, parts->count);
    }
}

static bool has_words(uint32_t kind, const uint8_t *payload, uint32_t length,
                      uint32_t variables, struct parts *parts)
{
    if (kind == KIND_JUDGE)
        return variables > 0 && arrangement_has_form(variables, payload, length);
    if (kind < KIND_OPEN || kind > KIND_JUDGE || !cut_payload(kind, payload, length, parts))
        return false;
    return kind != KIND_DERIVE || hints_have_words(parts);
}

/* Writes one record and keeps *variables, 0 until a session is open. */
static void say_record(struct sink *sink, const uint8_t *record, uint32_t length,
                       uint32_t *variables)
{
    static struct parts parts;
    uint32_t kind = get_2(record);

    if (!has_words(kind, record + 2, length - 2, *variables, &parts)) {
        say_hex(sink, "raw", record, length);
        return;
    }
    if (kind == KIND_JUDGE) {
        sink_text(sink, "judge ");
        say_arrangement(sink, record + 2, *variables);
    } else {
        say_parts(sink, kind, &parts);
    }
    sink_text(sink, "\n");
    if (kind == KIND_OPEN && *variables == 0 &&
        parts.number >= 1 && parts.number <= PROBLEM_VARIABLES)
        *variables = parts.number;
}

void disassemble(FILE *in, FILE *out)
{
    static struct source source;
    static struct sink sink;
    const uint8_t *bytes;
    uint32_t length;
    uint32_t variables = 0;
    enum frame frame;

    source_begin(&source, in);
    sink_begin(&sink, out);
    while ((frame = source_next(&source, &bytes, &length)) == FRAME_RECORD)
        say_record(&sink, bytes, length, &variables);
    /* Behind a broken frame nothing has a meaning; the bytes are kept. */
    size_t count;
    while (frame == FRAME_BROKEN && (count = source_rest(&source, &bytes)) > 0)
        for (size_t at = 0; at < count; at += BYTES_A_LINE)
            say_hex(&sink, "bytes", bytes + at,
                    count - at < BYTES_A_LINE ? count - at : BYTES_A_LINE);
    sink_flush(&sink);
}
