#include "steps.h"

#include "document.h"
#include "operation.h"

static unsigned word_of(const uint8_t *step)
{
    return step[1] << 8 | step[2];
}

/* The elements whose type is in the mask, each as a row from the column `from`. */
static void write_elements(struct text *sql, unsigned mask, const char *from)
{
    const char *between = "";
    for (unsigned type = 0; type < TYPES; type++)
        if (mask >> type & 1) {
            text_add(sql, "%sSELECT \"%s\", \"to\" FROM \"%s\"", between, from, type_names[type]);
            between = " UNION ALL ";
        }
    if (mask == 0)
        text_add(sql, "SELECT 0, 0 WHERE 0");
}

static void write_texts(struct text *sql, unsigned number)
{
    const char *between = "";
    for (unsigned type = 0; type < TYPES; type++) {
        text_add(sql, "%sSELECT \"to\", \"to\" FROM \"%s\" WHERE \"text\" = %u",
                 between, type_names[type], number);
        between = " UNION ALL ";
    }
}

static void write_join(struct text *sql, unsigned a, unsigned b)
{
    text_add(sql, "SELECT DISTINCT s%u.v, other.w FROM s%u JOIN s%u AS other ON other.v = s%u.w",
             a, a, b, a);
}

static void write_closure(struct text *sql, unsigned step, unsigned a)
{
    text_add(sql, "SELECT v, w FROM s%u UNION "
             "SELECT s%u.v, s%u.w FROM s%u JOIN s%u ON s%u.v = s%u.w",
             a, step, a, step, a, a, step);
}

static void write_mix(struct text *sql, unsigned a, const char *how, unsigned b)
{
    text_add(sql, "SELECT v, w FROM s%u %s SELECT v, w FROM s%u", a, how, b);
}

static void write_operation(struct text *sql, unsigned number, const uint8_t *step)
{
    switch ((enum operation)step[0]) {
    case TABLE:
        write_elements(sql, word_of(step), "from");
        break;
    case SELF:
        text_add(sql, "SELECT 0, 0 UNION ALL ");
        write_elements(sql, (1u << TYPES) - 1, "to");
        break;
    case TEXT:
        write_texts(sql, word_of(step));
        break;
    case JOIN:
        write_join(sql, step[1], step[2]);
        break;
    case UNION:
        write_mix(sql, step[1], "UNION", step[2]);
        break;
    case LFP:
        write_closure(sql, number, step[1]);
        break;
    case HAS:
        text_add(sql, "SELECT DISTINCT v, v FROM s%u", step[1]);
        break;
    case DIFF:
        write_mix(sql, step[1], "EXCEPT", step[2]);
        break;
    case AND:
        write_mix(sql, step[1], "INTERSECT", step[2]);
        break;
    }
}

void steps_write(struct text *sql, const uint8_t *rel)
{
    unsigned count = rel[5];
    text_clear(sql);
    text_add(sql, "WITH RECURSIVE");
    for (unsigned number = 0; number < count; number++) {
        text_add(sql, "%s s%u(v, w) AS (", number == 0 ? "" : ",", number);
        write_operation(sql, number, rel + 6 + 3 * number);
        text_add(sql, ")");
    }
    text_add(sql, " SELECT w FROM s%u WHERE v = 0 ORDER BY w", count - 1);
}
