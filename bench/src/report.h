/* What the measurements say, as tables. */
#ifndef REPORT_H
#define REPORT_H

#include "results.h"
#include "table.h"

#include <stdbool.h>

void report(const struct results *results, enum style style);

/* Prints the bars and what was measured against them; whether all hold. */
bool report_bars(const struct results *results, enum style style);

#endif
