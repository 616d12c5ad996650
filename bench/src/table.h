/* Tables to print: for people as plain text, or as Markdown. */
#ifndef TABLE_H
#define TABLE_H

#include <stddef.h>

enum style { PLAIN, MARKDOWN };

enum { TABLE_COLUMNS = 12, TABLE_ROWS = 16, TABLE_WIDTH = 64 };

struct table {
    enum style style;
    size_t left;    /* so many columns at the left hold words, the others numbers */
    size_t columns;
    size_t cells;
    char text[TABLE_ROWS * TABLE_COLUMNS][TABLE_WIDTH];
};

/* Begins a table; its first row is the heads of the columns. */
void table_start(struct table *table, enum style style, size_t left, size_t columns);

/* Adds a cell, the next in its row or the first of the next row. */
void table_add(struct table *table, const char *format, ...) __attribute__((format(printf, 2, 3)));
void table_code(struct table *table, const char *code);
void table_time(struct table *table, double nanoseconds); /* printed in microseconds */
void table_factor(struct table *table, double factor);

void table_print(const struct table *table);

#endif
