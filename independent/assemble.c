/* The assembler: script lines to records. A line is cut into words at
 * blanks; a comma is a word of its own, and a number sign starts a comment
 * that runs to the line's end. The first fault ends the work. */
#include "script.h"

#include <stdlib.h>
#include <string.h>

#include "bytes.h"

enum { SCRIPT_LINE_BYTES = 65536, REASON_BYTES = 160, SHOWN_BYTES = 40 };

struct assembler {
    FILE *in;
    uint64_t line_number;
    char line[SCRIPT_LINE_BYTES];
    char *next;            /* what is left of the line */
    char *word;            /* the word last taken, NULL behind the last */
    char held;             /* the byte overwritten to end the word */
    struct bytes out;
    char reason[REASON_BYTES];
};

static bool fail(struct assembler *assembler, const char *reason)
{
    snprintf(assembler->reason, sizeof assembler->reason, "%s", reason);
    return false;
}

static bool fail_word(struct assembler *assembler, const char *reason)
{
    if (assembler->word == NULL)
        snprintf(assembler->reason, sizeof assembler->reason,
                 "%s, but the line ends", reason);
    else
        snprintf(assembler->reason, sizeof assembler->reason,
                 "%s, not \"%.*s\"", reason, SHOWN_BYTES, assembler->word);
    return false;
}

/* Takes the next word; false at the end of the line. */
static bool take_word(struct assembler *assembler)
{
    if (assembler->word != NULL)
        *assembler->next = assembler->held;
    char *start = assembler->next + strspn(assembler->next, " \t\r");
    size_t length = *start == ',' ? 1 : strcspn(start, " \t\r,");
    assembler->next = start + length;
    assembler->held = *assembler->next;
    if (length == 0) {
        assembler->word = NULL;
        return false;
    }
    *assembler->next = '\0';
    assembler->word = start;
    return true;
}

static bool word_is(const struct assembler *assembler, const char *text)
{
    return assembler->word != NULL && strcmp(assembler->word, text) == 0;
}

/* The decimal value of the present word between the limits. */
static bool word_number(const struct assembler *assembler, int64_t least, int64_t greatest,
                        int64_t *value)
{
    const char *digits = assembler->word;
    bool negative;
    int64_t sum = 0;

    if (digits == NULL)
        return false;
    negative = *digits == '-';
    digits += negative;
    if (*digits == '\0')
        return false;
    for (; *digits != '\0'; digits++) {
        if (*digits < '0' || *digits > '9' || sum > INT64_C(1000000000000))
            return false;
        sum = sum * 10 + (*digits - '0');
    }
    *value = negative ? -sum : sum;
    return *value >= least && *value <= greatest;
}

static bool take_unsigned(struct assembler *assembler, const char *reason,
                          uint32_t greatest, uint32_t *value)
{
    int64_t number;
    take_word(assembler);
    if (!word_number(assembler, 0, greatest, &number))
        return fail_word(assembler, reason);
    *value = (uint32_t)number;
    return true;
}

/* Literals up to the end of the line or to the word `by`. */
static bool take_literals(struct assembler *assembler, bool by_allowed, uint32_t *count)
{
    *count = 0;
    while (take_word(assembler)) {
        int64_t literal;
        if (by_allowed && word_is(assembler, "by"))
            return true;
        if (!word_number(assembler, INT32_MIN, INT32_MAX, &literal))
            return fail_word(assembler, "a literal must be a whole number of 32 bits");
        put_4(&assembler->out, (uint32_t)literal);
        ++*count;
    }
    return true;
}

static bool take_end(struct assembler *assembler)
{
    if (take_word(assembler))
        return fail_word(assembler, "nothing more belongs on this line");
    return true;
}

static bool one_number(struct assembler *assembler, uint32_t kind, const char *reason)
{
    uint32_t number;
    size_t start = record_begin(&assembler->out, kind);
    if (!take_unsigned(assembler, reason, UINT32_MAX, &number))
        return false;
    put_4(&assembler->out, number);
    record_end(&assembler->out, start);
    return take_end(assembler);
}

static bool open_line(struct assembler *assembler)
{
    return one_number(assembler, KIND_OPEN, "open needs the number of variables");
}

static bool core_line(struct assembler *assembler)
{
    return one_number(assembler, KIND_CORE, "core needs the number of a derived clause");
}

static bool rule_line(struct assembler *assembler)
{
    uint32_t count;
    size_t start = record_begin(&assembler->out, KIND_RULE);
    if (!take_literals(assembler, false, &count))
        return false;
    record_end(&assembler->out, start);
    return true;
}

static bool wish_line(struct assembler *assembler)
{
    uint32_t weight;
    uint32_t count;
    size_t start = record_begin(&assembler->out, KIND_WISH);
    if (!take_unsigned(assembler, "wish needs its weight first", UINT32_MAX, &weight))
        return false;
    put_4(&assembler->out, weight);
    if (!take_literals(assembler, false, &count))
        return false;
    record_end(&assembler->out, start);
    return true;
}

static bool take_hint(struct assembler *assembler)
{
    struct hint hint = { 0, 0, 0 };
    uint32_t counter = 0;

    take_word(assembler);
    if (word_is(assembler, "rule"))
        hint.family = FAMILY_RULE;
    else if (word_is(assembler, "wish"))
        hint.family = FAMILY_WISH;
    else if (word_is(assembler, "counter"))
        hint.family = FAMILY_COUNTER;
    else if (word_is(assembler, "derived"))
        hint.family = FAMILY_DERIVED;
    else
        return fail_word(assembler, "a hint starts with rule, wish, counter or derived");
    if (hint.family == FAMILY_COUNTER) {
        if (!take_unsigned(assembler, "a counter's number is 0 to 65535", UINT16_MAX, &counter))
            return false;
        take_word(assembler);
        if (!word_is(assembler, "clause"))
            return fail_word(assembler, "behind the counter's number comes the word clause");
    }
    if (!take_unsigned(assembler, "a hint needs the clause's number", UINT32_MAX, &hint.second))
        return false;
    put_2(&assembler->out, hint.family);
    put_2(&assembler->out, counter);
    put_4(&assembler->out, hint.second);
    return true;
}

static bool derive_line(struct assembler *assembler)
{
    uint32_t count;
    size_t start = record_begin(&assembler->out, KIND_DERIVE);
    size_t count_place = assembler->out.length;

    put_4(&assembler->out, 0);
    if (!take_literals(assembler, true, &count))
        return false;
    for (size_t place = 0; place < 4; place++)
        assembler->out.data[count_place + place] = (uint8_t)(count >> (8 * place) & 0xff);
    if (assembler->word != NULL) {
        do {
            if (!take_hint(assembler))
                return false;
        } while (take_word(assembler) && word_is(assembler, ","));
        if (assembler->word != NULL)
            return fail_word(assembler, "a comma separates hints");
    }
    record_end(&assembler->out, start);
    return true;
}

static bool judge_line(struct assembler *assembler)
{
    size_t start = record_begin(&assembler->out, KIND_JUDGE);
    uint32_t byte = 0;
    size_t digits = 0;

    if (!take_word(assembler))
        return fail(assembler, "judge needs one digit 0 or 1 for each variable");
    do {
        for (const char *digit = assembler->word; *digit != '\0'; digit++, digits++) {
            if (*digit != '0' && *digit != '1')
                return fail_word(assembler, "an arrangement is written in digits 0 and 1");
            byte |= (uint32_t)(*digit - '0') << (digits % 8);
            if (digits % 8 == 7) {
                put_1(&assembler->out, byte);
                byte = 0;
            }
        }
    } while (take_word(assembler));
    if (digits % 8 != 0)
        put_1(&assembler->out, byte);
    record_end(&assembler->out, start);
    return true;
}

static int hex_digit(char letter)
{
    static const char digits[] = "0123456789abcdef0123456789ABCDEF";
    const char *found = letter == '\0' ? NULL : strchr(digits, letter);
    return found == NULL ? -1 : (int)(found - digits) % 16;
}

static bool take_hex(struct assembler *assembler)
{
    while (take_word(assembler)) {
        for (const char *pair = assembler->word; *pair != '\0'; pair += 2) {
            int high = hex_digit(pair[0]);
            int low = high < 0 ? -1 : hex_digit(pair[1]);
            if (low < 0)
                return fail_word(assembler, "bytes are written as pairs of hexadecimal digits");
            put_1(&assembler->out, (uint32_t)(16 * high + low));
        }
    }
    return true;
}

static bool raw_line(struct assembler *assembler)
{
    size_t start = assembler->out.length;
    put_4(&assembler->out, 0);
    if (!take_hex(assembler))
        return false;
    if (assembler->out.length - start < LENGTH_BYTES + RECORD_LEAST)
        return fail(assembler, "raw needs a kind of 2 bytes at least; "
                               "bytes can write a shorter record");
    record_end(&assembler->out, start);
    return true;
}

static bool bytes_line(struct assembler *assembler)
{
    return take_hex(assembler);
}

static const struct {
    const char *word;
    bool (*line)(struct assembler *assembler);
} line_kinds[] = {
    { "open", open_line },     { "rule", rule_line },   { "wish", wish_line },
    { "derive", derive_line }, { "core", core_line },   { "judge", judge_line },
    { "raw", raw_line },       { "bytes", bytes_line }
};

static bool assemble_line(struct assembler *assembler)
{
    size_t before = assembler->out.length;
    char *comment = strchr(assembler->line, '#');

    if (comment != NULL)
        *comment = '\0';
    assembler->next = assembler->line;
    assembler->word = NULL;
    if (!take_word(assembler))
        return true;
    for (size_t kind = 0; kind < sizeof line_kinds / sizeof *line_kinds; kind++) {
        if (!word_is(assembler, line_kinds[kind].word))
            continue;
        if (!line_kinds[kind].line(assembler))
            return false;
        /* The line of bytes frames nothing, so it may be of any length. */
        if (line_kinds[kind].line != bytes_line &&
            assembler->out.length - before > FRAMED_GREATEST)
            return fail(assembler, "the record would be longer than 4096 bytes");
        return true;
    }
    return fail_word(assembler, "a line starts with open, rule, wish, derive, core, judge, "
                                "raw or bytes");
}

/* Reads one line without its end; false at the end of the script. A line
 * that cannot be kept whole leaves a reason. */
static bool next_line(struct assembler *assembler)
{
    size_t length = 0;
    int letter = getc(assembler->in);

    assembler->reason[0] = '\0';
    if (letter == EOF)
        return false;
    assembler->line_number++;
    for (; letter != EOF && letter != '\n'; letter = getc(assembler->in)) {
        if (letter == '\0')
            fail(assembler, "a zero byte stands in the script");
        else if (length + 1 == sizeof assembler->line)
            fail(assembler, "the line is too long to be a record");
        else
            assembler->line[length++] = (char)letter;
    }
    assembler->line[length] = '\0';
    return true;
}

bool assemble(FILE *in, FILE *out)
{
    static struct assembler assembler;

    assembler.in = in;
    while (next_line(&assembler)) {
        if (assembler.reason[0] != '\0' || !assemble_line(&assembler)) {
            fprintf(stderr, "tally: line %llu: %s\n",
                    (unsigned long long)assembler.line_number, assembler.reason);
            bytes_free(&assembler.out);
            return false;
        }
    }
    static struct sink sink;
    sink_begin(&sink, out);
    sink_bytes(&sink, assembler.out.data, assembler.out.length);
    sink_flush(&sink);
    bytes_free(&assembler.out);
    return true;
}
