/* What is measured: each query asked of each document in each way, each document
 * converted, and each operation over it. */
#ifndef RESULTS_H
#define RESULTS_H

#include "measure.h"
#include "operation.h"
#include "query.h"

enum way {
    SELECT,
    RUN,
    TRANSLATE,
    CHECK,
    LIBXML_BYTES,
    LIBXML_TREE,
    SQLITE_STEPS,
    SQLITE_HAND,
    WAYS
};

enum conversion { SHRED, REBUILD, READ, CONVERSIONS };

extern const char *const way_names[WAYS];
extern const char *const conversion_names[CONVERSIONS];

/* A query of a document. */
struct asked {
    const struct query *query;
    size_t steps;
    size_t selected;
    struct timing ways[WAYS];
};

struct measured {
    size_t elements;
    struct timing conversions[CONVERSIONS];
    double operations[OPERATIONS]; /* nanoseconds, TABLE's first */
    struct asked asked[QUERIES];
};

enum { DOCUMENTS = 3 };

struct results {
    double load;                          /* of the machine, beforehand */
    struct measured documents[DOCUMENTS]; /* from the smallest to the largest */
};

#endif
