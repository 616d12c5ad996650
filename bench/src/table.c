#include "table.h"

#include "fail.h"

#include <stdarg.h>
#include <stdio.h>
#include <string.h>

void table_start(struct table *table, enum style style, size_t left, size_t columns)
{
    table->style = style;
    table->left = left;
    table->columns = columns;
    table->cells = 0;
}

void table_add(struct table *table, const char *format, ...)
{
    va_list values;
    if (table->cells == TABLE_ROWS * table->columns)
        fail("a table has at most %d rows", TABLE_ROWS);
    va_start(values, format);
    vsnprintf(table->text[table->cells++], TABLE_WIDTH, format, values);
    va_end(values);
}

void table_code(struct table *table, const char *code)
{
    table_add(table, table->style == MARKDOWN ? "`%s`" : "%s", code);
}

/* Three digits say what such a measurement can say. */
static int decimals(double value)
{
    return value < 10 ? 2 : value < 100 ? 1 : 0;
}

void table_time(struct table *table, double nanoseconds)
{
    double microseconds = nanoseconds / 1000;
    table_add(table, "%.*f", decimals(microseconds), microseconds);
}

void table_factor(struct table *table, double factor)
{
    table_add(table, "%.*f", decimals(factor), factor);
}

static size_t width_of(const struct table *table, size_t column)
{
    size_t width = 3;
    for (size_t cell = column; cell < table->cells; cell += table->columns)
        if (strlen(table->text[cell]) > width)
            width = strlen(table->text[cell]);
    return width;
}

static void print_row(const struct table *table, size_t first)
{
    const char *between = table->style == MARKDOWN ? " | " : "  ";
    fputs(table->style == MARKDOWN ? "| " : "", stdout);
    for (size_t column = 0; column < table->columns; column++) {
        int width = (int)width_of(table, column);
        printf("%s%*s", column == 0 ? "" : between, column < table->left ? -width : width,
               table->text[first + column]);
    }
    puts(table->style == MARKDOWN ? " |" : "");
}

static void print_rule(const struct table *table)
{
    for (size_t column = 0; column < table->columns; column++) {
        fputs("|-", stdout);
        for (size_t i = 1; i < width_of(table, column); i++)
            putchar('-');
        fputs(column < table->left ? "--" : "-:", stdout);
    }
    puts("|");
}

void table_print(const struct table *table)
{
    for (size_t first = 0; first < table->cells; first += table->columns) {
        print_row(table, first);
        if (first == 0 && table->style == MARKDOWN)
            print_rule(table);
    }
}
