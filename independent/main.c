/* The command line: runs records, reads sheets, assembles and disassembles
 * scripts, tells a run in words, generates runs and texts by seed, and writes,
 * replays and opens containers of runs and of texts. */
#include <inttypes.h>
#include <stdlib.h>
#include <string.h>

#include "container.h"
#include "corpus.h"
#include "explain.h"
#include "generate.h"
#include "records.h"
#include "script.h"
#include "text_container.h"
#include "text_corpus.h"
#include "wcnf.h"

enum { USAGE_EXIT = 2 };

static int usage(const char *reason)
{
    if (reason != NULL)
        fprintf(stderr, "tally: %s\n", reason);
    fprintf(stderr,
            "usage: tally run < records             answer lines\n"
            "       tally explain < records         answer lines with their meaning\n"
            "       tally text [ROOM] < sheet       older WCNF text to records\n"
            "       tally text-answer [ROOM] < sheet   NUMBER POSITION LENGTH only\n"
            "       tally assemble < script         script to records\n"
            "       tally disassemble < records     records to script\n"
            "       tally generate SEED [KIND]      a run of records\n"
            "       tally generate-text SEED [KIND] an older WCNF text\n"
            "       tally names                     the kinds of both generators\n"
            "       tally container SEED COUNT      a container of runs, one for each seed\n"
            "       tally corpus < worked           the corpus, a container\n"
            "       tally replay < container        answer lines, run by run\n"
            "       tally take NUMBER < container   the records of one run, counted from 1\n"
            "       tally text-container SEED COUNT    a container of texts, one for each seed\n"
            "       tally texts                     the corpus of texts, a container of them\n"
            "       tally text-replay < texts       N NUMBER POSITION LENGTH SUM, text by text\n"
            "       tally text-take NUMBER < texts  the bytes of one text, counted from 1\n");
    return USAGE_EXIT;
}

/* A whole word of digits up to the limit. */
static bool argument_number(const char *word, uint64_t limit, uint64_t *value)
{
    uint64_t sum = 0;

    if (*word == '\0')
        return false;
    for (; *word != '\0'; word++) {
        uint64_t digit = (uint64_t)(*word - '0');
        if (*word < '0' || *word > '9' || sum > (limit - digit) / 10)
            return false;
        sum = sum * 10 + digit;
    }
    *value = sum;
    return true;
}

static void write_output(const void *bytes, size_t length)
{
    static struct sink sink;
    sink_begin(&sink, stdout);
    sink_bytes(&sink, bytes, length);
    sink_flush(&sink);
}

static int run_input(void (*run)(struct source *, struct sink *))
{
    static struct source source;
    static struct sink sink;
    source_begin(&source, stdin);
    sink_begin(&sink, stdout);
    run(&source, &sink);
    sink_flush(&sink);
    return 0;
}

static int run_command(int count, char **words)
{
    (void)count;
    (void)words;
    return run_input(run_records);
}

static int explain_command(int count, char **words)
{
    (void)count;
    (void)words;
    return run_input(explain_records);
}

static int assemble_command(int count, char **words)
{
    (void)count;
    (void)words;
    return assemble(stdin, stdout) ? 0 : 1;
}

static int disassemble_command(int count, char **words)
{
    (void)count;
    (void)words;
    disassemble(stdin, stdout);
    return 0;
}

static int names_command(int count, char **words)
{
    (void)count;
    (void)words;
    list_records_kinds(stdout, "generate ");
    list_text_kinds(stdout, "generate-text ");
    return 0;
}

/* The sheet on standard input, read into records. One byte past the limit is
 * enough to know that a text is too long; the rest is not read. */
static uint8_t sheet_text[TEXT_GREATEST + 1];
static uint8_t sheet_records[SHEET_RECORD_ROOM];

static bool read_input_sheet(int count, char **words, struct sheet_answer *answer)
{
    uint64_t room = SHEET_RECORD_ROOM;

    if (count > 0 && !argument_number(words[0], UINT64_MAX, &room))
        return false;
    if (room > SHEET_RECORD_ROOM)
        room = SHEET_RECORD_ROOM;
    size_t length = read_all(stdin, sheet_text, sizeof sheet_text);
    *answer = read_sheet(sheet_text, length, sheet_records, (size_t)room);
    return true;
}

static void say_fault(struct sheet_answer answer)
{
    size_t line = 1;
    size_t column = 1;

    for (size_t place = 0; place < answer.position; place++) {
        column++;
        if (sheet_text[place] == '\n') {
            line++;
            column = 1;
        }
    }
    fprintf(stderr, "tally: refused (%" PRIu32 ") at byte %zu, line %zu, column %zu: %s\n",
            answer.number, answer.position, line, column, sheet_fault_words(answer.number));
}

static int text_command(int count, char **words)
{
    struct sheet_answer answer;

    if (!read_input_sheet(count, words, &answer))
        return usage("ROOM must be a number of bytes");
    if (answer.number != ACCEPTED) {
        say_fault(answer);
        return 1;
    }
    write_output(sheet_records, answer.length);
    return 0;
}

static int text_answer_command(int count, char **words)
{
    struct sheet_answer answer;

    if (!read_input_sheet(count, words, &answer))
        return usage("ROOM must be a number of bytes");
    printf("%" PRIu32 " %zu %zu\n", answer.number, answer.position, answer.length);
    return 0;
}

static int generate_with(bool (*generate)(uint64_t, const char *, struct bytes *),
                         int count, char **words)
{
    struct bytes out = { NULL, 0, 0 };
    uint64_t seed;

    if (!argument_number(words[0], UINT64_MAX, &seed))
        return usage("SEED must be a number from 0 to 18446744073709551615");
    if (!generate(seed, count > 1 ? words[1] : NULL, &out)) {
        fprintf(stderr, "tally: no kind is called \"%s\"; tally names lists them\n", words[1]);
        return USAGE_EXIT;
    }
    write_output(out.data, out.length);
    bytes_free(&out);
    return 0;
}

static int generate_command(int count, char **words)
{
    return generate_with(generate_records, count, words);
}

static int generate_text_command(int count, char **words)
{
    return generate_with(generate_text, count, words);
}

static int contain_with(void (*put)(struct bytes *, uint64_t, uint64_t), char **words)
{
    struct bytes container = { NULL, 0, 0 };
    uint64_t first;
    uint64_t seeds;

    if (!argument_number(words[0], UINT64_MAX, &first) ||
        !argument_number(words[1], UINT64_MAX, &seeds))
        return usage("SEED and COUNT must be numbers from 0 to 18446744073709551615");
    put(&container, first, seeds);
    write_output(container.data, container.length);
    bytes_free(&container);
    return 0;
}

static int container_command(int count, char **words)
{
    (void)count;
    return contain_with(put_runs, words);
}

static int text_container_command(int count, char **words)
{
    (void)count;
    return contain_with(put_texts, words);
}

static int corpus_command(int count, char **words)
{
    struct bytes worked = { NULL, 0, 0 };
    struct bytes container = { NULL, 0, 0 };

    (void)count;
    (void)words;
    put_file(&worked, stdin);
    put_corpus(&container, &worked);
    write_output(container.data, container.length);
    bytes_free(&worked);
    bytes_free(&container);
    return 0;
}

static int texts_command(int count, char **words)
{
    struct bytes container = { NULL, 0, 0 };

    (void)count;
    (void)words;
    put_text_corpus(&container);
    write_output(container.data, container.length);
    bytes_free(&container);
    return 0;
}

static int replay_with(void (*replay_all)(const struct bytes *, struct sink *))
{
    static struct sink sink;
    struct bytes container = { NULL, 0, 0 };

    put_file(&container, stdin);
    sink_begin(&sink, stdout);
    replay_all(&container, &sink);
    sink_flush(&sink);
    bytes_free(&container);
    return 0;
}

static int replay_command(int count, char **words)
{
    (void)count;
    (void)words;
    return replay_with(replay);
}

static int text_replay_command(int count, char **words)
{
    (void)count;
    (void)words;
    return replay_with(replay_texts);
}

/* The next of a container, whatever it holds. */
typedef bool next_bytes(const struct bytes *container, size_t *place,
                        const uint8_t **bytes, size_t *length);

static bool next_text(const struct bytes *container, size_t *place,
                      const uint8_t **bytes, size_t *length)
{
    struct entry entry;

    if (!next_entry(container, place, &entry))
        return false;
    *bytes = entry.text;
    *length = entry.length;
    return true;
}

static int take_with(next_bytes *next, const char *name, char **words)
{
    struct bytes container = { NULL, 0, 0 };
    const uint8_t *bytes = NULL;
    size_t length = 0;
    size_t place = 0;
    uint64_t wanted;
    uint64_t seen = 0;

    if (!argument_number(words[0], UINT64_MAX, &wanted) || wanted == 0)
        return usage("NUMBER must be a number from 1 on");
    put_file(&container, stdin);
    while (seen < wanted && next(&container, &place, &bytes, &length))
        seen++;
    if (seen == wanted)
        write_output(bytes, length);
    else
        fprintf(stderr, "tally: the container has only %" PRIu64 " %s\n", seen, name);
    bytes_free(&container);
    return seen == wanted ? 0 : 1;
}

static int take_command(int count, char **words)
{
    (void)count;
    return take_with(next_run, "runs", words);
}

static int text_take_command(int count, char **words)
{
    (void)count;
    return take_with(next_text, "texts", words);
}

static const struct {
    const char *name;
    int least;
    int greatest;
    int (*act)(int count, char **words);
} commands[] = {
    { "run", 0, 0, run_command },
    { "explain", 0, 0, explain_command },
    { "text", 0, 1, text_command },
    { "text-answer", 0, 1, text_answer_command },
    { "assemble", 0, 0, assemble_command },
    { "disassemble", 0, 0, disassemble_command },
    { "generate", 1, 2, generate_command },
    { "generate-text", 1, 2, generate_text_command },
    { "names", 0, 0, names_command },
    { "container", 2, 2, container_command },
    { "corpus", 0, 0, corpus_command },
    { "replay", 0, 0, replay_command },
    { "take", 1, 1, take_command },
    { "text-container", 2, 2, text_container_command },
    { "texts", 0, 0, texts_command },
    { "text-replay", 0, 0, text_replay_command },
    { "text-take", 1, 1, text_take_command }
};

int main(int count, char **words)
{
    if (count < 2)
        return usage("no command given");
    for (size_t command = 0; command < sizeof commands / sizeof *commands; command++) {
        if (strcmp(words[1], commands[command].name) != 0)
            continue;
        if (count - 2 < commands[command].least)
            return usage("an argument is missing");
        if (count - 2 > commands[command].greatest)
            return usage("there are too many arguments");
        return commands[command].act(count - 2, words + 2);
    }
    fprintf(stderr, "tally: there is no command \"%s\"\n", words[1]);
    return usage(NULL);
}
