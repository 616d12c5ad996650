/* What each operation costs by itself. */
#ifndef COST_H
#define COST_H

#include "document.h"
#include "operation.h"

/* Times every operation over a document: the nanoseconds of one step, TABLE's
 * first. HAS reads the closure of all edges, LFP the edges themselves, and an
 * operation with two operands the closure and the edges. */
void cost_measure(double *nanoseconds, const struct document *document);

#endif
