/* A slow second opinion for the tests, sharing no code with the tally. It
 * takes a run's records and the answer lines given to them, goes through all
 * 2^n arrangements, and complains unless: every accepted derived clause holds
 * wherever the rules are met, accepted and unshown derivations are told apart
 * rightly, bounds and judgings are right, what is called best has no cheaper
 * rival, and the cost equals the bound plus the remaining weights on what is
 * true. Counters are listed clause by clause, tree node by tree node. */
#include <stdbool.h>
#include <stdint.h>
#include <stdio.h>
#include <stdlib.h>
#include <string.h>

enum { MOST_VARIABLES = 12, NAMES = 60000, CLAUSES = 5000, LISTED = 2500, TREES = 130 };

typedef struct {
    int count;
    int literal[70];
} Clause;

static Clause rules[CLAUSES], wishes[CLAUSES], derived[CLAUSES];
static int rule_count, wish_count, derived_count, tree_count;
static long wish_weights[CLAUSES];
static Clause tree_inputs[TREES];
static Clause *tree_clauses[TREES];
static int tree_clause_count[TREES], tree_name_count[TREES];
static long weight_left[NAMES];
static bool truth[NAMES];
static long bound, place;
static int variables;
static long seen_best, seen_derived, seen_cores, seen_unshown;

static void complain(const char *what)
{
    printf("place %ld: %s\n", place, what);
    exit(1);
}

static long number_at(const unsigned char *bytes, int count)
{
    long value = 0;
    while (count-- > 0)
        value = value * 256 + bytes[count];
    return value;
}

static int literal_at(const unsigned char *bytes)
{
    long value = number_at(bytes, 4);
    return (int)(value >= 2147483648L ? value - 4294967296L : value);
}

/* Gives names to a node's outputs, lists its clauses, then does the same for
 * its halves. `outputs` receives the names of the outputs. */
static void list_node(int tree, const int *inputs, int size, int *outputs)
{
    int left[64], right[64], half = size / 2;
    Clause *mine = tree_clauses[tree] + tree_clause_count[tree];
    int own = 0;

    if (size == 1) {
        outputs[0] = inputs[0];
        return;
    }
    for (int output = 0; output < size; output++)
        outputs[output] = 4001 + 384 * tree + tree_name_count[tree]++;
    tree_clause_count[tree] += (half + 1) * (size - half + 1) - 1;
    list_node(tree, inputs, half, left);
    list_node(tree, inputs + half, size - half, right);
    for (int a = 0; a <= half; a++)
        for (int b = 0; b <= size - half; b++) {
            if (a + b == 0)
                continue;
            Clause *clause = &mine[own++];
            clause->count = 0;
            if (a > 0)
                clause->literal[clause->count++] = -left[a - 1];
            if (b > 0)
                clause->literal[clause->count++] = -right[b - 1];
            clause->literal[clause->count++] = outputs[a + b - 1];
        }
}

static void grow_tree(const Clause *inputs)
{
    int outputs[64];
    tree_inputs[tree_count] = *inputs;
    tree_clauses[tree_count] = calloc(LISTED, sizeof(Clause));
    if (tree_clauses[tree_count] == NULL)
        complain("out of memory");
    list_node(tree_count, inputs->literal, inputs->count, outputs);
    tree_count++;
}

static bool holds(const Clause *clause)
{
    for (int at = 0; at < clause->count; at++)
        if (truth[abs(clause->literal[at])] == (clause->literal[at] > 0))
            return true;
    return false;
}

/* Truths of a node's outputs, from the number of its true inputs. */
static int fill_node(const int *inputs, int size, int *name)
{
    int mine = *name, ones = 0;
    if (size == 1)
        return 0;
    for (int at = 0; at < size; at++)
        ones += truth[inputs[at]];
    for (int output = 1; output <= size; output++)
        truth[mine + output - 1] = ones >= output;
    *name += size;
    fill_node(inputs, size / 2, name);
    fill_node(inputs + size / 2, size - size / 2, name);
    return ones;
}

static void arrange(unsigned bits)
{
    for (int variable = 1; variable <= variables; variable++)
        truth[variable] = bits >> (variable - 1) & 1;
    for (int wish = 0; wish < wish_count; wish++)
        truth[2001 + wish] = !holds(&wishes[wish]);
    for (int tree = 0; tree < tree_count; tree++) {
        int name = 4001 + 384 * tree;
        fill_node(tree_inputs[tree].literal, tree_inputs[tree].count, &name);
    }
}

static int first_broken_rule(void)
{
    for (int rule = 0; rule < rule_count; rule++)
        if (!holds(&rules[rule]))
            return rule;
    return -1;
}

static long present_cost(void)
{
    long cost = 0;
    for (int wish = 0; wish < wish_count; wish++)
        if (!holds(&wishes[wish]))
            cost += wish_weights[wish];
    return cost;
}

static long weight_on_true(void)
{
    long sum = 0;
    for (int wish = 0; wish < wish_count; wish++)
        sum += truth[2001 + wish] ? weight_left[2001 + wish] : 0;
    for (int tree = 0; tree < tree_count; tree++)
        for (int t = 0; t < tree_name_count[tree]; t++)
            sum += truth[4001 + 384 * tree + t] ? weight_left[4001 + 384 * tree + t] : 0;
    return sum;
}

/* The cost equation for every arrangement, and the least cost (-1: none). */
static long least_cost(void)
{
    long least = -1;
    for (unsigned bits = 0; bits < 1u << variables; bits++) {
        arrange(bits);
        if (first_broken_rule() >= 0)
            continue;
        long cost = present_cost();
        if (cost != bound + weight_on_true())
            complain("cost is not the bound and the weights on what is true");
        if (least < 0 || cost < least)
            least = cost;
    }
    return least;
}

static void check_derived_holds(const Clause *clause)
{
    for (unsigned bits = 0; bits < 1u << variables; bits++) {
        arrange(bits);
        if (first_broken_rule() < 0 && !holds(clause))
            complain("a derived clause fails for an arrangement that meets the rules");
    }
}

static Clause named_clause(const unsigned char *hint)
{
    long family = number_at(hint, 2), first = number_at(hint + 2, 2);
    long second = number_at(hint + 4, 4);
    if (family == 1)
        return rules[second];
    if (family == 3)
        return tree_clauses[first][second];
    if (family == 4)
        return derived[second];
    Clause clause = wishes[second];
    clause.literal[clause.count++] = (int)(2001 + second);
    return clause;
}

static bool listed(const int *list, int count, int literal)
{
    while (count-- > 0)
        if (list[count] == literal)
            return true;
    return false;
}

/* Whether the hints show the clause, with the false literals in a list. */
static bool shows(const Clause *clause, const unsigned char *hints, long hint_count)
{
    int falsified[400], count = clause->count;
    memcpy(falsified, clause->literal, sizeof clause->literal);
    for (long hint = 0; hint < hint_count; hint++) {
        Clause named = named_clause(hints + 8 * hint);
        int open = 0, forced = 0;
        for (int at = 0; at < named.count; at++) {
            if (listed(falsified, count, -named.literal[at]))
                return false;
            if (!listed(falsified, count, named.literal[at])) {
                open++;
                forced = named.literal[at];
            }
        }
        if (open == 0)
            return hint + 1 == hint_count;
        if (open > 1)
            return false;
        falsified[count++] = -forced;
    }
    return false;
}

static Clause clause_at(const unsigned char *bytes, long count)
{
    Clause clause = { (int)count, { 0 } };
    for (long at = 0; at < count; at++)
        clause.literal[at] = literal_at(bytes + 4 * at);
    return clause;
}

static void follow_derive(const unsigned char *payload, long length, long answer)
{
    long count = number_at(payload, 4);
    Clause clause = clause_at(payload + 4, count);
    bool shown = shows(&clause, payload + 4 + 4 * count, (length - 4 - 4 * count) / 8);
    if (shown != (answer == 0))
        complain("the hints were judged wrongly");
    if (!shown) {
        seen_unshown++;
        return;
    }
    check_derived_holds(&clause);
    derived[derived_count++] = clause;
    seen_derived++;
}

static void follow_core(long number, long first, long second)
{
    const Clause *members = &derived[number];
    long least = weight_left[members->literal[0]];
    for (int at = 0; at < members->count; at++)
        if (weight_left[members->literal[at]] < least)
            least = weight_left[members->literal[at]];
    if (least < 1 || least != second || bound + least != first)
        complain("a core has wrong values");
    bound += least;
    for (int at = 0; at < members->count; at++)
        weight_left[members->literal[at]] -= least;
    for (int output = 2; output <= members->count; output++)
        weight_left[4001 + 384 * tree_count + output - 1] = least;
    if (members->count > 1)
        grow_tree(members);
    seen_cores++;
    if (variables <= 7)
        least_cost();
}

static void follow_judge(const unsigned char *payload, long answer, long first, long second)
{
    unsigned bits = 0;
    for (int byte = 0; byte < (variables + 7) / 8; byte++)
        bits |= (unsigned)payload[byte] << (8 * byte);
    arrange(bits);
    int broken = first_broken_rule();
    if (answer == 24 ? broken != first : broken >= 0)
        complain("a judging is wrong about the rules");
    if (answer == 24)
        return;
    if (present_cost() != first || bound != second || (first == second) != (answer == 1))
        complain("a judging has wrong values");
    if (answer == 1 && least_cost() != first)
        complain("what is called best is not of least cost");
    seen_best += answer == 1;
}

static void follow(const unsigned char *record, long length, const long *line)
{
    long kind = line[1], answer = line[2];
    const unsigned char *payload = record + 2;

    if (kind == 4 && (answer == 0 || answer == 20))
        follow_derive(payload, length - 2, answer);
    else if (kind == 6 && (answer <= 1 || answer == 24))
        follow_judge(payload, answer, line[3], line[4]);
    else if (answer != 0)
        return;
    else if (kind == 1)
        variables = (int)number_at(payload, 4);
    else if (kind == 2)
        rules[rule_count++] = clause_at(payload, (length - 2) / 4);
    else if (kind == 5)
        follow_core(number_at(payload, 4), line[3], line[4]);
    else {
        wish_weights[wish_count] = number_at(payload, 4);
        weight_left[2001 + wish_count] = wish_weights[wish_count];
        wishes[wish_count++] = clause_at(payload + 4, (length - 6) / 4);
    }
    if (variables > MOST_VARIABLES) {
        printf("more than %d variables\n", MOST_VARIABLES);
        exit(3);
    }
}

int main(int count, char **words)
{
    unsigned char head[4], record[4096];
    long line[5];
    FILE *records = count == 3 ? fopen(words[1], "rb") : NULL;
    FILE *lines = count == 3 ? fopen(words[2], "r") : NULL;

    if (records == NULL || lines == NULL) {
        fprintf(stderr, "usage: naive RECORDS LINES\n");
        return 2;
    }
    while (fread(head, 1, 4, records) == 4) {
        long length = number_at(head, 4);
        place++;
        if (length > 4096 || fread(record, 1, (size_t)length, records) != (size_t)length)
            complain("a broken frame");
        if (fscanf(lines, "%ld %ld %ld %ld %ld", &line[0], &line[1], &line[2], &line[3],
                   &line[4]) != 5 || line[0] != place)
            complain("an answer line is missing");
        follow(record, length, line);
    }
    if (variables > 0)
        least_cost();
    printf("best %ld derived %ld cores %ld unshown %ld\n",
           seen_best, seen_derived, seen_cores, seen_unshown);
    return 0;
}
