/* A program as SQL: one named query a step. */
#ifndef STEPS_H
#define STEPS_H

#include "text.h"
#include "trammelbud.h"

/* Writes the query for a sound REL file. It asks the tables of the types, each
 * with the columns "from", "to" and "text". */
void steps_write(struct text *sql, const uint8_t *rel);

#endif
