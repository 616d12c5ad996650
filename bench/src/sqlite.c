#include "sqlite.h"

#include "fail.h"
#include "steps.h"
#include "text.h"

const char *sqlite_version(void)
{
    return sqlite3_libversion();
}

static void run(struct sqlite *sqlite, const char *sql)
{
    if (sqlite3_exec(sqlite->database, sql, NULL, NULL, NULL) != SQLITE_OK)
        fail("SQLite: %s: %s", sqlite3_errmsg(sqlite->database), sql);
}

static sqlite3_stmt *prepare(struct sqlite *sqlite, const char *sql)
{
    sqlite3_stmt *statement = NULL;
    if (sqlite3_prepare_v3(sqlite->database, sql, -1, SQLITE_PREPARE_PERSISTENT, &statement, NULL)
        != SQLITE_OK)
        fail("SQLite: %s: %s", sqlite3_errmsg(sqlite->database), sql);
    return statement;
}

static void create_tables(struct sqlite *sqlite)
{
    struct text sql;
    text_clear(&sql);
    for (int type = 0; type < TYPES; type++)
        text_add(&sql,
                 "CREATE TABLE \"%s\"(\"from\" INTEGER, \"to\" INTEGER PRIMARY KEY, \"text\" INTEGER);"
                 "CREATE INDEX \"in_%s\" ON \"%s\"(\"from\", \"to\");",
                 type_names[type], type_names[type], type_names[type]);
    text_add(&sql,
             "CREATE TABLE element("
             "number INTEGER PRIMARY KEY, parent INTEGER, type INTEGER, text INTEGER);"
             "CREATE INDEX children ON element(parent, type);");
    run(sqlite, sql.bytes);
}

/* An element without text has no number there: NULL is equal to nothing. */
static void insert_row(struct sqlite *sqlite, int type, const uint8_t *row)
{
    unsigned from = row[0], to = row[1], number = row[2] << 8 | row[3];
    struct text sql;
    text_clear(&sql);
    text_add(&sql, "INSERT INTO \"%s\" VALUES(%u, %u, NULLIF(%u, 0));",
             type_names[type], from, to, number);
    text_add(&sql, "INSERT INTO element VALUES(%u, %u, %d, NULLIF(%u, 0));",
             to, from, type, number);
    run(sqlite, sql.bytes);
}

static void insert_rows(struct sqlite *sqlite, const struct document *document)
{
    const uint8_t *row = document->edg + 6;
    for (int type = 0; type < TYPES; type++)
        for (unsigned rows = *row++; rows > 0; rows--, row += 4)
            insert_row(sqlite, type, row);
}

/* The connection is for one thread and locks nothing, and ANALYZE tells the
 * planner how the tables are filled: SQLite is to be as fast as it can be. */
static void open_database(struct sqlite *sqlite, const struct document *document)
{
    int flags = SQLITE_OPEN_READWRITE | SQLITE_OPEN_CREATE | SQLITE_OPEN_NOMUTEX;
    if (sqlite3_open_v2(":memory:", &sqlite->database, flags, NULL) != SQLITE_OK)
        fail("SQLite opens no database");
    create_tables(sqlite);
    insert_rows(sqlite, document);
    run(sqlite, "ANALYZE");
}

void sqlite_open(struct sqlite *sqlite, const struct document *document,
                 const struct query *query, const uint8_t *rel)
{
    struct text sql;
    open_database(sqlite, document);
    steps_write(&sql, rel);
    sqlite->steps = prepare(sqlite, sql.bytes);
    sqlite->hand = prepare(sqlite, query->sql);
}

void sqlite_close(struct sqlite *sqlite)
{
    sqlite3_finalize(sqlite->steps);
    sqlite3_finalize(sqlite->hand);
    sqlite3_close(sqlite->database);
}

static void ask(struct sqlite *sqlite, sqlite3_stmt *statement)
{
    sqlite->nodes.count = 0;
    while (sqlite3_step(statement) == SQLITE_ROW)
        nodes_add(&sqlite->nodes, sqlite3_column_int(statement, 0));
    if (sqlite3_reset(statement) != SQLITE_OK)
        fail("SQLite: %s", sqlite3_errmsg(sqlite->database));
}

void sqlite_steps(void *with)
{
    struct sqlite *sqlite = with;
    ask(sqlite, sqlite->steps);
}

void sqlite_hand(void *with)
{
    struct sqlite *sqlite = with;
    ask(sqlite, sqlite->hand);
}
