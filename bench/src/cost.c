#include "cost.h"

#include "measure.h"
#include "ours.h"

#include <string.h>

/* Every program starts with the edges and their closure. */
enum { EDGES, CLOSURE, STARTED };

static const uint8_t start[] = {
    'R', 'E', 'L', 0, 1, STARTED,
    TABLE, 0, (1 << TYPES) - 1,
    LFP, EDGES, 0,
};

/* The rest is one step over and over, so that what it takes stands out against
 * the reading and the start. */
enum { REPEATED = TB_MOST_STEPS - STARTED };

static const uint8_t steps[OPERATIONS][3] = {
    {TABLE, 0, (1 << TYPES) - 1},
    {SELF, 0, 0},
    {TEXT, 0, 7},
    {JOIN, CLOSURE, EDGES},
    {UNION, CLOSURE, EDGES},
    {LFP, EDGES, 0},
    {HAS, CLOSURE, 0},
    {DIFF, CLOSURE, EDGES},
    {AND, CLOSURE, EDGES},
};

static void open_start(struct ours *ours, const struct document *document)
{
    ours->document = document;
    memcpy(ours->rel, start, sizeof start);
    ours->rel_len = sizeof start;
}

static void repeat(struct ours *ours, const uint8_t *step)
{
    for (int i = 0; i < REPEATED; i++) {
        memcpy(ours->rel + ours->rel_len, step, 3);
        ours->rel_len += 3;
        ours->rel[5]++;
    }
}

void cost_measure(double *nanoseconds, const struct document *document)
{
    static struct ours programs[OPERATIONS + 1];
    struct task tasks[OPERATIONS + 1];
    struct timing timings[OPERATIONS + 1];
    for (int i = 0; i <= OPERATIONS; i++) {
        open_start(&programs[i], document);
        if (i < OPERATIONS)
            repeat(&programs[i], steps[i]);
        tasks[i] = (struct task){ours_run, &programs[i]};
    }
    measure(tasks, OPERATIONS + 1, timings);
    for (int i = 0; i < OPERATIONS; i++)
        nanoseconds[i] = (timings[i].median - timings[OPERATIONS].median) / REPEATED;
}
