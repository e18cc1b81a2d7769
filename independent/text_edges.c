/* The edges of the older WCNF form. Short ones are written out; those that
 * repeat something are described by a beginning, a piece with its number of
 * repetitions, and an end. Clauses around the greatest number of literals, and
 * clauses with each set of the faults 15 to 18, are worked out. */
#include "text_edges.h"

static const char *const written_out[] = {
    /* before and in the header */
    "", " ", "\n", "c", "c\n", "c only a comment", "c\nc\n", " c\n", "\n\n", "\r", "x",
    "p", "p wcnf", "p wcnf ", "p wcnf\n", "p wcnf 1", "p wcnf 1 0", "p wcnf 1 0 ",
    "p wcnf 1 0 1", "p wcnf 1 0 1\n", "p wcnf 1 0 1 ", "p wcnf 1 0 1\r\n", "p wcnf 1 0 1 \t\r",
    "p wcnf 1 0 1 1", "p wcnf 1 0 1 x\n", "p wcnf 1 0 1 c\n", "p wcnf 1 0\n1\n",
    "p wcnf\n1 0 1\n", "p  wcnf 1 0 1\n", "p\twcnf 1 0 1\n", "p wcnf1 0 1\n", "p wcnfx 1 0 1\n",
    "pwcnf 1 0 1\n", "P wcnf 1 0 1\n", "p WCNF 1 0 1\n", "p cnf 1 0\n", " p wcnf 1 0 1\n",
    "\t\r\n p wcnf 1 0 1\n", "c\n  p wcnf 1 0 1\n", "c\n\nc\n\np wcnf 1 0 1\n",
    " c\np wcnf 1 0 1\n", "p wcnf -1 0 1\n", "p wcnf +1 0 1\n", "p wcnf 1 -0 1\n",
    "p wcnf 1 0 -1\n", "p wcnf 01 00 001\n", "p wcnf 0000000000000000000000002 0 1\n",
    "p wcnf 0 0 1\n", "p wcnf 2000 0 1\n", "p wcnf 2001 0 1\n", "p wcnf   2001 0 1\n",
    "c\np wcnf 0 0 1\n", "p wcnf 4294967295 0 1\n", "p wcnf 4294967296 0 1\n",
    "p wcnf 1 4294967295 1\n", "p wcnf 1 4294967296 1\n", "p wcnf 1 0 4294967295\n",
    "p wcnf 1 0 4294967296\n", "p wcnf 0 4294967296 1\n", "p wcnf 1,0,1\n", "p wcnf 1 0 1\v\n",
    "p wcnf 99999999999999999999 0 1\n", "p wcnf 1 0 1\np wcnf 1 0 1\n",
    "p wcnf\t2\r1 \t 7\n7 1 0\n", "p wcnf 1 0 1c\n", "p wcnf 1 0 1\nc", "p wcnf 1 0 1\n c",
    /* weights and top */
    "p wcnf 2 1 5\n5 1 2 0\n", "p wcnf 2 1 5\n6 1 2 0\n", "p wcnf 2 1 5\n4 1 2 0\n",
    "p wcnf 2 1 5\n1 1 2 0\n", "p wcnf 1 1 1\n1 1 0\n", "p wcnf 2000 1 5\n5 -2000 0\n",
    "p wcnf 2 1 0\n0 1 2 0\n", "p wcnf 2 1 1\n0 1 2 0\n", "p wcnf 2 1 5\n1000000 1 0\n",
    "p wcnf 2 1 5\n1000001 1 0\n", "p wcnf 2 1 1000001\n1000001 1 0\n",
    "p wcnf 2 1 4294967295\n4294967295 1 0\n", "p wcnf 2 1 5\n4294967295 1 0\n",
    "p wcnf 2 1 5\n4294967296 1 0\n", "p wcnf 2 1 5\n-1 1 0\n", "p wcnf 2 1 5\n-5 1 0\n",
    "p wcnf 2 1 5\n+5 1 0\n", "p wcnf 2 1 5\n0005 1 0\n", "p wcnf 2 1 0005\n5 1 0\n",
    "p wcnf 2 1 0\n00 1 0\n", "p wcnf 2 1 0\n-0 1 0\n", "p wcnf 2 1 5\nh 1 0\n",
    /* literals and the ending 0 */
    "p wcnf 2 1 5\n5 0", "p wcnf 2 1 5\n3 0\n", "p wcnf 2 1 5\n5", "p wcnf 2 1 5\n5 ",
    "p wcnf 2 1 5\n5 1", "p wcnf 2 1 5\n5 1\n", "p wcnf 2 1 5\n5 1 00\n",
    "p wcnf 2 1 5\n5 1 -0\n", "p wcnf 2 1 5\n5 1 -00 0\n", "p wcnf 2 1 5\n5 +1 0\n",
    "p wcnf 2 1 5\n5 - 1 0\n", "p wcnf 2 1 5\n5 --1 0\n", "p wcnf 2 1 5\n5 -1- 0\n",
    "p wcnf 2 1 5\n5 1-2 0\n", "p wcnf 2 1 5\n5 1- 0\n", "p wcnf 2 1 5\n5 -1 -02 000\n", "p wcnf 2 1 5\n5 -01 02 0\n", "p wcnf 2 1 5\n5 3 0\n",
    "p wcnf 2 1 5\n5 -3 0\n", "p wcnf 2 1 5\n5 2147483647 0\n", "p wcnf 2 1 5\n5 2147483648 0\n",
    "p wcnf 2 1 5\n5 -2147483647 0\n", "p wcnf 2 1 5\n5 -2147483648 0\n",
    "p wcnf 2 1 5\n5 1 1 0\n", "p wcnf 2 1 5\n5 1 -1 0\n", "p wcnf 2 1 5\n5 1 2 1 0\n",
    "p wcnf 2 1 5\n5 1 1 3 0\n", "p wcnf 2 1 5\n0 1 1 3 0\n", "p wcnf 2 1 5\n5 1 1\n",
    "p wcnf 2 1 5\n5 1 1 x\n", "p wcnf 2 2 5\n5 1 1 0\nx\n", "p wcnf 2 2 5\n5 3 0 5 1 1 0\n",
    "p wcnf 2 1 5\n   0 1 0\n", "p wcnf 2 1 5\n5 1 0x\n", "p wcnf 2 1 5\n5 1 0 \001\n",
    /* clauses, lines and comments */
    "p wcnf 2 2 5\n5 1 0 5 2 0\n", "p wcnf 2 1 5\n5\n1\n2\n0\n", "p wcnf 2 1 5\n5 1\nc x\n2 0\n",
    "p wcnf 2 1 5\n5 1\n c x\n2 0\n", "p wcnf 2 1 5\n5 1 c x\n2 0\n", "p wcnf 2 1 5\n5 1\nc",
    "p wcnf 2 1 5\nc 5 1 0\n5 2 0\n", "p wcnf 2 1 5\r\n5 1 0\r\n", "p wcnf 2 1 5\n\t5\t1\t0\t",
    "p wcnf 2 1 5\nc\r5 1 0\n5 2 0\n", "p wcnf 2 1 5\n5 1\nc0\n0\nc\n", "p wcnf 2 1 5\ncc\n5 1 0",
    "p wcnf 2 1 5 5 1 0\n", "p wcnf 2 1 5\n5 1 2 0c\n",
    /* the number of clauses */
    "p wcnf 2 0 5\n5 1 0\n", "p wcnf 2 1 5\n", "p wcnf 2 1 5", "p wcnf 2 2 5\n5 1 0\n",
    "p wcnf 2 1 5\n5 1 0\n5 2 0\n", "p wcnf 2 3 5\n5 1 0\n5 2\n", "p wcnf 2 01 5\n5 1 0\n"
};

static const struct {
    const char *beginning;
    const char *piece;
    uint32_t times;
    const char *end;
} repeated[] = {
    { "", "c\n", 8000, "p wcnf 1 1 2\n2 1 0\n" },
    { "", "c\n", 8000, "" },
    { "", "c\n", 8192, "" },
    { "", "c\n", 8185, "p wcnf 1 0 1\n\n" },
    { "p wcnf 1 1 2\n2 1\n", "c\n", 8000, "0\n" },
    { "p wcnf 1 0 1\n", "c\n", 8185, "c" },
    { "p wcnf 1 0 1\n", "c\n", 8185, "c\n" },
    { "p wcnf 1 0 1\n", "\n", 16371, "" },
    { "p wcnf 1 0 1\n", "\n", 16372, "" },
    { "p wcnf 1 1 1\n", "\n", 16371, "" },
    { "p wcnf 1 1 1\n1", " ", 16370, "" },
    { "p wcnf 1 1 1\n", "\n", 16370, "x" },
    { "p wcnf 1 0 1", " ", 16372, "" },
    { "p wcnf 1 0 1", " ", 16373, "" },
    { "", " ", 16384, "" },
    { "", " ", 16385, "" },
    { "p wcnf 1 0 1\n", "\n", 16373, "" },
    { "p wcnf 1 0 1\n", "\n", 19987, "" },
    { "c", "x", 16383, "" },
    { "p wcnf ", "0", 16000, "1 0 1\n" },
    { "p wcnf 1 1 1\n", "0", 16000, "1 1 0\n" },
    { "p wcnf 1 1 1\n1 -", "0", 16000, "1 0\n" },
    { "p wcnf 1 1 1\n1 1 ", "0", 16000, "\n" },
    { "p wcnf 1 1 1\n1 ", "1 ", 8000, "0\n" },
    { "p wcnf 1 1 1\n1 ", "2 ", 64, "0\n" },
    { "p wcnf 1 1 1\n1 ", "2 ", 65, "0\n" },
    { "p wcnf 1 1 1\n0 ", "2 ", 65, "0\n" },
    { "p wcnf 1 1 1\n1 ", "1 ", 65, "" },
    { "p wcnf 1 1 1\n1 ", "1 ", 65, "x 0\n" },
    { "p wcnf 1 4000 1\n", "1 0\n", 4000, "" },
    { "p wcnf 1 4000 9\n", "1 0 ", 4000, "" },
    { "p wcnf 1 4000 9\n", "1 0\n", 4001, "" },
    { "p wcnf 1 2300 9\n", "1 -1 0\n", 2300, "" }
};

enum {
    WRITTEN_COUNT = sizeof written_out / sizeof *written_out,
    REPEATED_COUNT = sizeof repeated / sizeof *repeated,
    RISING_COUNT = 4,
    FAULTS_COUNT = 16
};

uint32_t edge_count(void)
{
    return WRITTEN_COUNT + REPEATED_COUNT + RISING_COUNT + FAULTS_COUNT;
}

/* Clauses of 63 to 66 different variables. */
static void write_rising(uint32_t literals, struct bytes *out)
{
    put_string(out, "p wcnf 70 1 9\n8");
    for (uint32_t variable = 1; variable <= literals; variable++) {
        put_string(out, variable % 3 == 0 ? " -" : " ");
        put_decimal(out, variable);
    }
    put_string(out, " 0\n");
}

/* A clause with the faults of a set: weight 0 (15), literals 3 to 65 (16), one
 * above n (17), one variable twice with the other sign (18). */
static void write_faults(uint32_t set, struct bytes *out)
{
    put_string(out, set & 1 ? "p wcnf 70 1 9\n0 1 -2" : "p wcnf 70 1 9\n8 1 -2");
    for (uint32_t variable = 3; set & 2 && variable <= 65; variable++) {
        put_string(out, " ");
        put_decimal(out, variable);
    }
    put_string(out, set & 4 ? " -71" : "");
    put_string(out, set & 8 ? " 2 0\n" : " 0\n");
}

static void write_repeated(uint32_t number, struct bytes *out)
{
    put_string(out, repeated[number].beginning);
    for (uint32_t time = 0; time < repeated[number].times; time++)
        put_string(out, repeated[number].piece);
    put_string(out, repeated[number].end);
}

void write_edge(uint32_t number, struct bytes *out)
{
    if (number < WRITTEN_COUNT) {
        put_string(out, written_out[number]);
        return;
    }
    number -= WRITTEN_COUNT;
    if (number < REPEATED_COUNT) {
        write_repeated(number, out);
        return;
    }
    number -= REPEATED_COUNT;
    if (number < RISING_COUNT)
        write_rising(number + 63, out);
    else
        write_faults(number - RISING_COUNT, out);
}
