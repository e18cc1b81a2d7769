/* Older WCNF texts by seed: sound sheets in many layouts, sheets with one
 * fault or several, the edges of every limit, damage and noise. The kind
 * `edges` walks a fixed list, the seed being the place in it; so does `bytes`,
 * which has every byte in four places. */
#include "generate.h"

#include <string.h>

#include "text_edges.h"

/* A sheet under way: the clauses first, since the header counts them. */
struct sheet {
    struct chance *chance;
    struct bytes body;
    uint32_t variables;
    uint32_t clauses;
    uint32_t top;
    uint32_t layout; /* 0 plain, 1 loose, 2 wild */
};

static void put_pick(struct chance *chance, struct bytes *out,
                     const char *const *list, uint32_t count)
{
    put_string(out, list[draw_below(chance, count)]);
}

/* A gap between two words of clauses. */
static void put_gap(struct sheet *sheet)
{
    static const char *const loose[] = { " ", "  ", "\t", " \t ", "\r", "\n", " \n", "\r\n" };
    static const char *const wild[] = { "\n\n", "\nc between lines\n", "\nc\nc\n", "\r\n \r\n",
                                        "\nc 1 0 p wcnf\r\n ", " \nc\n\t" };
    if (sheet->layout == 2 && draw_percent(sheet->chance, 20))
        put_pick(sheet->chance, &sheet->body, wild, 6);
    else if (sheet->layout > 0 && draw_percent(sheet->chance, 40))
        put_pick(sheet->chance, &sheet->body, loose, 8);
    else
        put_string(&sheet->body, " ");
}

static void put_line_end(struct sheet *sheet)
{
    if (sheet->layout > 0 && draw_percent(sheet->chance, 30))
        put_gap(sheet);
    else
        put_string(&sheet->body, "\n");
}

static void put_value(struct sheet *sheet, int64_t value)
{
    if (value < 0)
        put_string(&sheet->body, "-");
    if (sheet->layout > 0 && draw_percent(sheet->chance, 5))
        put_string(&sheet->body, draw_percent(sheet->chance, 50) ? "0" : "000000000000");
    put_decimal(&sheet->body, value < 0 ? -value : value);
}

/* Different variables by stepping through them; count is at most n. */
static void put_clause(struct sheet *sheet, int64_t weight, uint32_t count)
{
    uint32_t variable = draw_below(sheet->chance, sheet->variables);

    put_value(sheet, weight);
    put_gap(sheet);
    for (uint32_t place = 0; place < count; place++) {
        int64_t literal = variable + 1;
        variable = (variable + 1) % sheet->variables;
        put_value(sheet, draw_percent(sheet->chance, 50) ? literal : -literal);
        put_gap(sheet);
    }
    put_value(sheet, 0);
    put_line_end(sheet);
    sheet->clauses++;
}

static int64_t draw_sheet_weight(struct sheet *sheet)
{
    if (draw_percent(sheet->chance, 50))
        return sheet->top;
    if (draw_percent(sheet->chance, 10))
        return GREATEST_WEIGHT;
    return draw_between(sheet->chance, 1, 100);
}

static void put_some_clauses(struct sheet *sheet, uint32_t clauses)
{
    while (clauses-- > 0) {
        uint32_t count = draw_below(sheet->chance, 5);
        put_clause(sheet, draw_sheet_weight(sheet),
                   count < sheet->variables ? count : sheet->variables);
    }
}

static void sheet_begin(struct sheet *sheet, struct chance *chance)
{
    static const uint32_t tops[] = { 0, 1, 50, 101, 1000000, 1000001, 4294967295u };
    memset(sheet, 0, sizeof *sheet);
    sheet->chance = chance;
    sheet->variables = draw_percent(chance, 10) ? draw_between(chance, 1990, 2000)
                                                : draw_between(chance, 1, 90);
    sheet->top = tops[draw_below(chance, sizeof tops / sizeof *tops)];
    sheet->layout = draw_below(chance, 3);
}

static void put_header(struct sheet *sheet, struct bytes *out, uint32_t clauses)
{
    static const char *const before[] = { "c a sheet\n", "\n", " ", "c\n\n c", "\t\r\n",
                                          "c p wcnf 1 1 1\n  " };
    static const char *const gaps[] = { " ", "  ", "\t", "\r", " \t" };
    static const char *const ends[] = { "\n", " \n", "\r\n", "\n\nc next\n", "\n \n", "\t\r\n" };

    /* Entry 3 hides a word behind a blank and is a fault; it is rare. */
    if (sheet->layout > 0 && draw_percent(sheet->chance, 50)) {
        uint32_t choice = draw_below(sheet->chance, 6);
        if (choice != 3 || draw_percent(sheet->chance, 20))
            put_string(out, before[choice]);
    }
    const uint32_t numbers[3] = { sheet->variables, clauses, sheet->top };
    put_string(out, "p wcnf");
    for (uint32_t place = 0; place < 3; place++) {
        put_pick(sheet->chance, out, gaps, sheet->layout == 0 ? 1 : 5);
        if (sheet->layout > 0 && draw_percent(sheet->chance, 5))
            put_string(out, "0000000000000000");
        put_decimal(out, numbers[place]);
    }
    put_pick(sheet->chance, out, ends, sheet->layout == 0 ? 1 : 6);
}

static void sheet_end(struct sheet *sheet, struct bytes *out, uint32_t clauses)
{
    put_header(sheet, out, clauses);
    put_all(out, sheet->body.data, sheet->body.length);
    /* The last blank is left off now and then: a line may end with the text. */
    if (out->data[out->length - 1] == '\n' && draw_percent(sheet->chance, 30))
        out->length--;
    bytes_free(&sheet->body);
}

static void text_sound(uint64_t seed, struct chance *chance, struct bytes *out)
{
    struct sheet sheet;
    (void)seed;
    sheet_begin(&sheet, chance);
    put_some_clauses(&sheet, draw_below(chance, 30));
    sheet_end(&sheet, out, sheet.clauses);
}

/* One odd word somewhere among sound clauses. */
static void text_words(uint64_t seed, struct chance *chance, struct bytes *out)
{
    static const char *const words[] = {
        "-0", "-00", "+1", "-", "--1", "1-", "1x", "x", "c", "p", "4294967295", "4294967296",
        "2147483647", "2147483648", "-2147483648", "-2147483647", "-1", "0x1", "1.5", "1e3",
        "00", "0", "007", "99999999999999999999", "\001", "\377", "1\v2", "1,2"
    };
    struct sheet sheet;
    (void)seed;
    sheet_begin(&sheet, chance);
    put_some_clauses(&sheet, draw_below(chance, 4));
    uint32_t place = draw_below(chance, 3);
    if (place > 0)
        put_string(&sheet.body, "7 ");
    if (place > 1)
        put_string(&sheet.body, "1 ");
    put_pick(chance, &sheet.body, words, sizeof words / sizeof *words);
    put_string(&sheet.body, draw_percent(chance, 50) ? " 0\n" : " ");
    sheet.clauses++;
    put_some_clauses(&sheet, draw_below(chance, 3));
    sheet_end(&sheet, out, sheet.clauses);
}

/* A clause with chosen faults of 15 to 18, alone or together. */
static void put_faulty_clause(struct sheet *sheet, uint32_t percent)
{
    static const int64_t weights[] = { 0, 1, 1000000, 1000001, 4294967295 };
    static const int64_t literals[] = { 2001, 2147483647, -2147483647, 2000, -2001 };
    struct chance *chance = sheet->chance;
    int64_t weight = draw_percent(chance, percent) ? weights[draw_below(chance, 5)]
                                                   : draw_sheet_weight(sheet);
    uint32_t count = draw_below(chance, 4);

    if (draw_percent(chance, percent))
        count = draw_between(chance, 63, 66);
    put_decimal(&sheet->body, weight);
    for (uint32_t place = 0; place < count; place++) {
        put_gap(sheet);
        put_value(sheet, (int64_t)place + 1);
    }
    if (draw_percent(chance, percent)) {
        put_gap(sheet);
        put_value(sheet, literals[draw_below(chance, 5)]);
    }
    if (draw_percent(chance, percent)) {
        put_gap(sheet);
        put_value(sheet, (int64_t)sheet->variables + (int64_t)draw_below(chance, 2));
    }
    if (draw_percent(chance, percent) && count > 0)
        put_string(&sheet->body, draw_percent(chance, 50) ? " 1" : " -1");
    put_string(&sheet->body, draw_percent(chance, 95) ? " 0\n" : " \n");
    sheet->clauses++;
}

static void faulty_sheet(struct chance *chance, struct bytes *out, uint32_t percent)
{
    struct sheet sheet;
    sheet_begin(&sheet, chance);
    put_some_clauses(&sheet, draw_below(chance, 5));
    for (uint32_t clauses = draw_between(chance, 1, 3); clauses > 0; clauses--)
        put_faulty_clause(&sheet, percent);
    put_some_clauses(&sheet, draw_below(chance, 3));
    if (draw_percent(chance, percent / 2))
        sheet.variables = draw_percent(chance, 50) ? 0 : draw_between(chance, 2001, 4000);
    sheet_end(&sheet, out,
              draw_percent(chance, percent / 2) ? sheet.clauses + 1 : sheet.clauses);
}

static void text_limits(uint64_t seed, struct chance *chance, struct bytes *out)
{
    (void)seed;
    faulty_sheet(chance, out, 12);
}

static void text_several(uint64_t seed, struct chance *chance, struct bytes *out)
{
    (void)seed;
    faulty_sheet(chance, out, 50);
}

static void text_counts(uint64_t seed, struct chance *chance, struct bytes *out)
{
    struct sheet sheet;
    (void)seed;
    sheet_begin(&sheet, chance);
    put_some_clauses(&sheet, draw_below(chance, 6));
    if (draw_percent(chance, 40))
        put_string(&sheet.body, draw_percent(chance, 50) ? "3" : "3 1 -1 \n");
    uint32_t said = draw_percent(chance, 40) ? sheet.clauses : draw_below(chance, 8);
    sheet_end(&sheet, out, draw_percent(chance, 5) ? UINT32_MAX : said);
}

/* Sheets of exactly the greatest length, one more or one less, or well above
 * it. */
static void text_length(uint64_t seed, struct chance *chance, struct bytes *out)
{
    static const char *const fillers[] = { "c\n", " ", "\n", "c long ", "1 0\n", "2 1 -2 0 " };
    uint32_t filler = draw_below(chance, 6);
    size_t wanted = draw_percent(chance, 10) ? draw_between(chance, TEXT_GREATEST + 2, 20000)
                                             : TEXT_GREATEST - 1 + draw_below(chance, 3);
    size_t step = strlen(fillers[filler]);
    struct bytes rest = { NULL, 0, 0 };
    uint32_t clauses = 0;
    (void)seed;

    while (rest.length + 40 + step < wanted) {
        put_string(&rest, fillers[filler]);
        clauses += filler >= 4;
    }
    bool before = filler <= 2 && draw_percent(chance, 50);
    if (before)
        put_all(out, rest.data, rest.length);
    put_string(out, "p wcnf 5 ");
    put_decimal(out, clauses + (draw_percent(chance, 20) ? 1 : 0));
    put_string(out, " 9\n");
    if (!before)
        put_all(out, rest.data, rest.length);
    while (out->length < wanted)
        put_1(out, ' ');
    bytes_free(&rest);
}

static void text_edges(uint64_t seed, struct chance *chance, struct bytes *out)
{
    (void)chance;
    write_edge((uint32_t)(seed % edge_count()), out);
}

/* Every byte behind and before words: at the head of the header's line, among
 * its numbers, at the start of a line and behind a literal. */
static void text_bytes(uint64_t seed, struct chance *chance, struct bytes *out)
{
    static const char *const before[] = { "", "p wcnf 9 0", "p wcnf 9 1 2\n", "p wcnf 9 1 2\n2 1" };
    static const char *const behind[] = { "p wcnf 9 0 2\n", "2 \n", "\n2 0\n", "0\n" };
    uint32_t place = (uint32_t)(seed / 256 % 4);
    (void)chance;
    put_string(out, before[place]);
    put_1(out, (uint32_t)(seed % 256));
    put_string(out, behind[place]);
}

/* Puts some bytes into a text, the rest of it moving on. */
static void insert(struct bytes *text, uint32_t place, const uint8_t *bytes, uint32_t count)
{
    put_all(text, bytes, count);
    memmove(text->data + place + count, text->data + place, text->length - count - place);
    memcpy(text->data + place, bytes, count);
}

static void take_out(struct bytes *text, uint32_t place, uint32_t count)
{
    memmove(text->data + place, text->data + place + count, text->length - count - place);
    text->length -= count;
}

/* A stretch of a text stands a second time somewhere, or is moved there. */
static void spread(struct chance *chance, struct bytes *out, bool moved)
{
    uint8_t stretch[12];
    uint32_t length = (uint32_t)out->length;
    uint32_t count = draw_between(chance, 1, length < sizeof stretch ? length : sizeof stretch);
    uint32_t from = draw_below(chance, length - count + 1);

    memcpy(stretch, out->data + from, count);
    if (moved)
        take_out(out, from, count);
    insert(out, draw_below(chance, (uint32_t)out->length + 1), stretch, count);
}

static void text_damaged(uint64_t seed, struct chance *chance, struct bytes *out)
{
    static const char letters[] = "0123456789- \n\r\tcpw+x";
    text_sound(seed, chance, out);
    for (uint32_t times = draw_between(chance, 1, 3); times > 0; times--) {
        uint32_t place = draw_below(chance, (uint32_t)out->length);
        uint8_t letter = (uint8_t)letters[draw_below(chance, sizeof letters - 1)];
        uint32_t choice = draw_below(chance, 6);
        if (choice >= 4)
            spread(chance, out, choice == 5);
        else if (choice == 3)
            out->length = place + 1;
        else if (choice == 2)
            insert(out, place, &letter, 1);
        else if (choice == 1 && out->length > 1)
            take_out(out, place, 1);
        else
            out->data[place] = letter;
    }
}

/* Words by chance, often sound by accident. */
static void text_soup(uint64_t seed, struct chance *chance, struct bytes *out)
{
    static const char *const words[] = {
        "1", "2", "3", "-1", "-2", "5", "5", "0", "0", "0", "0\n", "\n", "\nc x\n", " ",
        "\t", "\r\n", "00", "c", "p", "-0", "1000001"
    };
    uint32_t known = sizeof words / sizeof *words - (draw_percent(chance, 60) ? 4 : 0);
    (void)seed;
    put_string(out, "p wcnf 3 ");
    put_decimal(out, draw_below(chance, 4));
    put_string(out, draw_percent(chance, 50) ? " 5\n" : " 1\n");
    for (uint32_t count = draw_below(chance, 16); count > 0; count--) {
        put_pick(chance, out, words, known);
        if (draw_percent(chance, 90))
            put_string(out, " ");
    }
}

static void text_noise(uint64_t seed, struct chance *chance, struct bytes *out)
{
    static const char letters[] = "pcwnf 0 0 1 1 2345-+\n\n\r\t";
    bool any = draw_percent(chance, 30);
    (void)seed;
    if (draw_percent(chance, 60))
        put_string(out, "p wcnf 5 1 3\n");
    for (uint32_t count = draw_below(chance, 120); count > 0; count--)
        put_1(out, any ? (uint32_t)draw(chance)
                       : (uint32_t)letters[draw_below(chance, sizeof letters - 1)]);
}

static const struct {
    const char *name;
    void (*write)(uint64_t seed, struct chance *chance, struct bytes *out);
} kinds[] = {
    { "sound", text_sound },     { "words", text_words },   { "limits", text_limits },
    { "several", text_several }, { "counts", text_counts }, { "length", text_length },
    { "edges", text_edges },     { "bytes", text_bytes },   { "damaged", text_damaged },
    { "soup", text_soup },       { "noise", text_noise }
};

enum { KIND_COUNT = sizeof kinds / sizeof *kinds };

bool generate_text(uint64_t seed, const char *name, struct bytes *out)
{
    struct chance chance = { seed };
    struct chance choice = { ~seed };
    uint32_t kind = 0;

    if (name == NULL)
        kind = draw_below(&choice, KIND_COUNT);
    else
        while (kind < KIND_COUNT && strcmp(kinds[kind].name, name) != 0)
            kind++;
    if (kind == KIND_COUNT)
        return false;
    kinds[kind].write(seed, &chance, out);
    return true;
}

void list_text_kinds(FILE *file, const char *before)
{
    for (uint32_t kind = 0; kind < KIND_COUNT; kind++)
        fprintf(file, "%s%s\n", before, kinds[kind].name);
}
