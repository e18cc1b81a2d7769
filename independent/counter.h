/* Counters (totalizer trees): how many variables and clauses one over m
 * inputs has, and what any single clause of it says. Clauses are never
 * listed; one is found by walking down the halves of the tree. */
#ifndef COUNTER_H
#define COUNTER_H

#include <stdint.h>

#include "sizes.h"

extern const uint16_t counter_variables[COUNTER_INPUTS + 1];
extern const uint16_t counter_clauses[COUNTER_INPUTS + 1];

/* Writes the literals of clause `number` of the counter whose inputs are
 * given and whose variable 0 is `first_variable`; returns how many (2 or 3).
 * The number must be below counter_clauses[input_count]. */
uint32_t counter_clause(const int32_t *inputs, uint32_t input_count,
                        int32_t first_variable, uint32_t number,
                        int32_t literals[3]);

#endif
