/* The shape of counters: two tables of sizes and the look-up of one clause
 * by recursion on the halves. The tables are written out rather than worked
 * out so that the look-up is a few additions per level; the naive program in
 * the tests works them out again. */
#include "counter.h"

const uint16_t counter_variables[COUNTER_INPUTS + 1] = {
    0,
    0,   2,   5,   8,   12,  16,  20,  24,
    29,  34,  39,  44,  49,  54,  59,  64,
    70,  76,  82,  88,  94,  100, 106, 112,
    118, 124, 130, 136, 142, 148, 154, 160,
    167, 174, 181, 188, 195, 202, 209, 216,
    223, 230, 237, 244, 251, 258, 265, 272,
    279, 286, 293, 300, 307, 314, 321, 328,
    335, 342, 349, 356, 363, 370, 377, 384
};

const uint16_t counter_clauses[COUNTER_INPUTS + 1] = {
    0,
    0,    3,    8,    14,   22,   31,   41,   52,
    65,   79,   94,   110,  127,  145,  164,  184,
    206,  229,  253,  278,  304,  331,  359,  388,
    418,  449,  481,  514,  548,  583,  619,  656,
    695,  735,  776,  818,  861,  905,  950,  996,
    1043, 1091, 1140, 1190, 1241, 1293, 1346, 1400,
    1455, 1511, 1568, 1626, 1685, 1745, 1806, 1868,
    1931, 1995, 2060, 2126, 2193, 2261, 2330, 2400
};

/* A part's output: a single input stands for itself. */
static int32_t output_of(const int32_t *inputs, uint32_t input_count,
                         int32_t first_variable, uint32_t output)
{
    if (input_count == 1)
        return inputs[0];
    return first_variable + (int32_t)output - 1;
}

uint32_t counter_clause(const int32_t *inputs, uint32_t input_count,
                        int32_t first_variable, uint32_t number,
                        int32_t literals[3])
{
    uint32_t left = input_count / 2;
    uint32_t right = input_count - left;
    uint32_t own = (left + 1) * (right + 1) - 1;
    int32_t left_variable = first_variable + (int32_t)input_count;
    int32_t right_variable = left_variable + counter_variables[left];

    if (number < own) {
        /* The pair (0, 0) is left out, hence the step of one. */
        uint32_t from_left = (number + 1) / (right + 1);
        uint32_t from_right = (number + 1) % (right + 1);
        uint32_t count = 0;
        if (from_left > 0)
            literals[count++] = -output_of(inputs, left, left_variable, from_left);
        if (from_right > 0)
            literals[count++] = -output_of(inputs + left, right, right_variable, from_right);
        literals[count++] = first_variable + (int32_t)(from_left + from_right) - 1;
        return count;
    }
    number -= own;
    if (number < counter_clauses[left])
        return counter_clause(inputs, left, left_variable, number, literals);
    return counter_clause(inputs + left, right, right_variable,
                          number - counter_clauses[left], literals);
}
