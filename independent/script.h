/* The script form of records, for people: one record a line in words. */
#ifndef SCRIPT_H
#define SCRIPT_H

#include <stdbool.h>
#include <stdint.h>
#include <stdio.h>

#include "records.h"
#include "stream.h"

/* Reads a script and writes its records; on a fault says line and reason on
 * standard error, writes nothing and returns false. */
bool assemble(FILE *in, FILE *out);

/* Reads any bytes and writes a script that assembles to them again. */
void disassemble(FILE *in, FILE *out);

/* Pieces that the explaining of a run shares. */
void say_literals(struct sink *sink, const int32_t *literals, uint32_t count);
void say_hint(struct sink *sink, struct hint hint);
void say_arrangement(struct sink *sink, const uint8_t *arrangement, uint32_t variables);

#endif
