#include "report.h"

#include "libxml.h"
#include "machine.h"
#include "sqlite.h"

#include <stdarg.h>
#include <stdio.h>

static double time_in(const struct asked *asked, enum way way)
{
    return asked->ways[way].median;
}

/* How many times as long as tb_select a way takes. */
static double ratio_to_select(const struct asked *asked, enum way way)
{
    return time_in(asked, way) / time_in(asked, SELECT);
}

static const struct measured *largest(const struct results *results)
{
    return &results->documents[DOCUMENTS - 1];
}

__attribute__((format(printf, 2, 3)))
static void print_heading(enum style style, const char *format, ...)
{
    va_list values;
    va_start(values, format);
    fputs(style == MARKDOWN ? "\n### " : "\n", stdout);
    vprintf(format, values);
    fputs("\n\n", stdout);
    va_end(values);
}

static double widest_spread(const struct results *results)
{
    double widest = 0;
    for (size_t d = 0; d < DOCUMENTS; d++)
        for (size_t q = 0; q < QUERIES; q++)
            for (enum way way = 0; way < WAYS; way++) {
                double spread = results->documents[d].asked[q].ways[way].spread;
                widest = spread > widest ? spread : widest;
            }
    return widest;
}

static void print_machine(const struct results *results, enum style style)
{
    char processor[128], date[16];
    machine_processor(processor, sizeof processor);
    machine_date(date, sizeof date);
    fputs(style == MARKDOWN ? "## Measured\n\n" : "", stdout);
    printf("%s, %s, with libxml2 %s and SQLite %s. ", processor, date, libxml_version(),
           sqlite_version());
    printf("The machine's load was %.1f beforehand. ", results->load);
    printf("A time is the median of %d samples, and the middle half of them spans %.0f %% of it "
           "at most.\n", SAMPLES, 100 * widest_spread(results));
}

static void add_asked(struct table *table, const struct measured *measured,
                      const struct asked *asked)
{
    table_add(table, "%zu", measured->elements);
    table_code(table, asked->query->xpath);
}

static void print_times(const struct results *results, enum style style)
{
    struct table table;
    table_start(&table, style, 2, 4 + WAYS);
    table_add(&table, "elements");
    table_add(&table, "query");
    table_add(&table, "steps");
    table_add(&table, "selects");
    for (enum way way = 0; way < WAYS; way++)
        table_add(&table, "%s", way_names[way]);
    for (size_t d = 0; d < DOCUMENTS; d++)
        for (size_t q = 0; q < QUERIES; q++) {
            const struct asked *asked = &results->documents[d].asked[q];
            add_asked(&table, &results->documents[d], asked);
            table_add(&table, "%zu", asked->steps);
            table_add(&table, "%zu", asked->selected);
            for (enum way way = 0; way < WAYS; way++)
                table_time(&table, time_in(asked, way));
        }
    print_heading(style, "Microseconds for one answer");
    table_print(&table);
}

static void print_ratios(const struct results *results, enum style style)
{
    struct table table;
    table_start(&table, style, 2, 2 + WAYS - LIBXML_BYTES);
    table_add(&table, "elements");
    table_add(&table, "query");
    for (enum way way = LIBXML_BYTES; way < WAYS; way++)
        table_add(&table, "%s", way_names[way]);
    for (size_t d = 0; d < DOCUMENTS; d++)
        for (size_t q = 0; q < QUERIES; q++) {
            const struct asked *asked = &results->documents[d].asked[q];
            add_asked(&table, &results->documents[d], asked);
            for (enum way way = LIBXML_BYTES; way < WAYS; way++)
                table_factor(&table, ratio_to_select(asked, way));
        }
    print_heading(style, "How many times as long as tb_select from bytes");
    table_print(&table);
}

static void print_conversions(const struct results *results, enum style style)
{
    struct table table;
    table_start(&table, style, 1, 1 + CONVERSIONS);
    table_add(&table, "elements");
    for (enum conversion c = 0; c < CONVERSIONS; c++)
        table_add(&table, "%s", conversion_names[c]);
    for (size_t d = 0; d < DOCUMENTS; d++) {
        table_add(&table, "%zu", results->documents[d].elements);
        for (enum conversion c = 0; c < CONVERSIONS; c++)
            table_time(&table, results->documents[d].conversions[c].median);
    }
    print_heading(style, "Microseconds to convert or read a document");
    table_print(&table);
}

/* A row of how something grows from each document to the next. */
static void add_growth(struct table *table, const char *name, const double *times)
{
    table_add(table, "%s", name);
    for (size_t d = 1; d < DOCUMENTS; d++)
        table_factor(table, times[d] / times[d - 1]);
}

static void add_growths(struct table *table, const struct results *results)
{
    double times[DOCUMENTS];
    for (enum way way = 0; way < WAYS; way++) {
        for (size_t d = 0; d < DOCUMENTS; d++)
            times[d] = time_in(&results->documents[d].asked[0], way);
        add_growth(table, way_names[way], times);
    }
    for (enum conversion c = 0; c < CONVERSIONS; c++) {
        for (size_t d = 0; d < DOCUMENTS; d++)
            times[d] = results->documents[d].conversions[c].median;
        add_growth(table, conversion_names[c], times);
    }
}

static void print_growth(const struct results *results, enum style style)
{
    struct table table;
    double elements[DOCUMENTS];
    table_start(&table, style, 1, DOCUMENTS);
    table_add(&table, "%s", results->documents[0].asked[0].query->xpath);
    for (size_t d = 0; d < DOCUMENTS; d++)
        elements[d] = results->documents[d].elements;
    for (size_t d = 1; d < DOCUMENTS; d++)
        table_add(&table, "from %.0f to %.0f", elements[d - 1], elements[d]);
    add_growth(&table, "elements", elements);
    add_growths(&table, results);
    print_heading(style, "Growth with the elements: how many times as long");
    table_print(&table);
}

static void print_costs(const struct results *results, enum style style)
{
    struct table table;
    table_start(&table, style, 1, 1 + OPERATIONS);
    table_add(&table, "elements");
    for (size_t i = 0; i < OPERATIONS; i++)
        table_add(&table, "%s", operation_names[i]);
    for (size_t d = 0; d < DOCUMENTS; d++) {
        table_add(&table, "%zu", results->documents[d].elements);
        for (size_t i = 0; i < OPERATIONS; i++)
            table_time(&table, results->documents[d].operations[i]);
    }
    print_heading(style, "Microseconds for one step of each operation");
    table_print(&table);
}

static void print_steps(const struct results *results, enum style style)
{
    const struct measured *measured = largest(results);
    struct table table;
    table_start(&table, style, 1, 6);
    table_add(&table, "query");
    table_add(&table, "steps");
    table_add(&table, "tb_run");
    table_add(&table, "less reading");
    table_add(&table, "of that a step");
    table_add(&table, "SQLite a step");
    for (size_t q = 0; q < QUERIES; q++) {
        const struct asked *asked = &measured->asked[q];
        double steps = time_in(asked, RUN) - measured->conversions[READ].median;
        table_code(&table, asked->query->xpath);
        table_add(&table, "%zu", asked->steps);
        table_time(&table, time_in(asked, RUN));
        table_time(&table, steps);
        table_time(&table, steps / asked->steps);
        table_time(&table, time_in(asked, SQLITE_STEPS) / asked->steps);
    }
    print_heading(style, "Growth with the steps: microseconds at %zu elements", measured->elements);
    table_print(&table);
}

void report(const struct results *results, enum style style)
{
    print_machine(results, style);
    print_times(results, style);
    print_ratios(results, style);
    print_conversions(results, style);
    print_growth(results, style);
    print_steps(results, style);
    print_costs(results, style);
}

/* So many times as long as tb_select a way has to take at least, for the first
 * query of the largest document. */
struct bar {
    enum way way;
    double factor;
};

static const struct bar bars[] = {{LIBXML_BYTES, 4}, {SQLITE_HAND, 20}};

bool report_bars(const struct results *results, enum style style)
{
    const struct asked *asked = &largest(results)->asked[0];
    struct table table;
    bool hold = true;
    table_start(&table, style, 1, 4);
    table_add(&table, "tb_select faster than");
    table_add(&table, "bar");
    table_add(&table, "measured");
    table_add(&table, "bar is");
    for (size_t i = 0; i < sizeof bars / sizeof *bars; i++) {
        double measured = ratio_to_select(asked, bars[i].way);
        bool holds = measured >= bars[i].factor;
        table_add(&table, "%s", way_names[bars[i].way]);
        table_factor(&table, bars[i].factor);
        table_factor(&table, measured);
        table_add(&table, holds ? "met" : "MISSED");
        hold = hold && holds;
    }
    print_heading(style, "Bars: %s at %zu elements", asked->query->xpath,
                  largest(results)->elements);
    table_print(&table);
    return hold;
}
