/* The queries that are asked, each in the three languages. */
#ifndef QUERY_H
#define QUERY_H

#include "trammelbud.h"

enum { QUERIES = 4 };

struct query {
    const char *xpath;
    size_t qry_len;
    uint8_t qry[5 + TB_MOST_QUERY_NODES];
    const char *sql; /* over the table that `sqlite.h` names */
};

extern const struct query queries[QUERIES];

#endif
