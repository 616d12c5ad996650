/* SQLite: the document as tables in memory, asked in SQL.
 *
 * There are two sets of tables. The program's steps ask one table a type, as in
 * an EDG file, with the columns "from", "to" and "text". The queries by hand ask
 * one table of all, element(number, parent, type, text). Both have an index for
 * each way in which they are looked into. */
#ifndef SQLITE_H
#define SQLITE_H

#include "document.h"
#include "nodes.h"
#include "query.h"

#include <sqlite3.h>

struct sqlite {
    sqlite3 *database;
    sqlite3_stmt *steps;
    sqlite3_stmt *hand;
    struct nodes nodes; /* the last answer */
};

const char *sqlite_version(void);

/* Fills the tables and prepares the statements; `rel` is the query's program. */
void sqlite_open(struct sqlite *sqlite, const struct document *document,
                 const struct query *query, const uint8_t *rel);
void sqlite_close(struct sqlite *sqlite);

/* Ways to ask, for a task: the program's steps, or the query by hand. */
void sqlite_steps(void *sqlite);
void sqlite_hand(void *sqlite);

#endif
