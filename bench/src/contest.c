#include "contest.h"

#include "cost.h"
#include "document.h"
#include "fail.h"
#include "libxml.h"
#include "ours.h"
#include "sqlite.h"

#include <stdio.h>
#include <string.h>

/* Those who are asked one query of one document. */
struct contestants {
    struct ours ours;
    struct libxml libxml;
    struct sqlite sqlite;
};

static void open_all(struct contestants *all, const struct document *document,
                     const struct query *query)
{
    ours_open(&all->ours, document, query);
    libxml_open(&all->libxml, document, query);
    sqlite_open(&all->sqlite, document, query, all->ours.rel);
}

static void close_all(struct contestants *all)
{
    libxml_close(&all->libxml);
    sqlite_close(&all->sqlite);
}

static void list_tasks(struct contestants *all, struct task *tasks)
{
    tasks[SELECT] = (struct task){ours_select, &all->ours};
    tasks[RUN] = (struct task){ours_run, &all->ours};
    tasks[TRANSLATE] = (struct task){ours_translate, &all->ours};
    tasks[CHECK] = (struct task){ours_check, &all->ours};
    tasks[LIBXML_BYTES] = (struct task){libxml_bytes, &all->libxml};
    tasks[LIBXML_TREE] = (struct task){libxml_tree, &all->libxml};
    tasks[SQLITE_STEPS] = (struct task){sqlite_steps, &all->sqlite};
    tasks[SQLITE_HAND] = (struct task){sqlite_hand, &all->sqlite};
}

/* Where a way leaves its nodes; null for one that answers none. */
static const struct nodes *nodes_of(const struct contestants *all, enum way way)
{
    switch (way) {
    case SELECT:
    case RUN:
        return &all->ours.nodes;
    case LIBXML_BYTES:
    case LIBXML_TREE:
        return &all->libxml.nodes;
    case SQLITE_STEPS:
    case SQLITE_HAND:
        return &all->sqlite.nodes;
    default:
        return NULL;
    }
}

/* Every way has to give the nodes of tb_select. */
static void compare_nodes(const struct contestants *all, const struct task *tasks)
{
    tasks[SELECT].once(tasks[SELECT].with);
    const struct nodes expected = all->ours.nodes;
    for (enum way way = 0; way < WAYS; way++) {
        const struct nodes *nodes = nodes_of(all, way);
        tasks[way].once(tasks[way].with);
        if (nodes != NULL && !nodes_equal(nodes, &expected))
            fail("%s of %zu elements: %s selects %zu nodes, tb_select other %zu",
                 all->ours.query->xpath, all->ours.document->elements, way_names[way],
                 nodes->count, expected.count);
    }
}

static void ask(struct asked *asked, const struct document *document, const struct query *query)
{
    static struct contestants all;
    struct task tasks[WAYS];
    open_all(&all, document, query);
    list_tasks(&all, tasks);
    compare_nodes(&all, tasks);
    asked->query = query;
    asked->steps = all.ours.rel[5];
    asked->selected = all.ours.nodes.count;
    measure(tasks, WAYS, asked->ways);
    close_all(&all);
}

/* The tables have to give the document back. */
static void compare_bytes(struct files *files)
{
    const struct document *document = files->document;
    files_rebuild(files);
    if (files->written != document->tre_len
        || memcmp(files->out, document->tre, document->tre_len) != 0)
        fail("the document of %zu elements isn't rebuilt", document->elements);
}

static void convert(struct measured *measured, const struct document *document)
{
    struct files files = {.document = document};
    struct task tasks[CONVERSIONS] = {
        [SHRED] = {files_shred, &files},
        [REBUILD] = {files_rebuild, &files},
        [READ] = {files_read, &files},
    };
    compare_bytes(&files);
    measure(tasks, CONVERSIONS, measured->conversions);
}

void contest(struct measured *measured, size_t elements)
{
    struct document document;
    document_make(&document, elements);
    measured->elements = elements;
    convert(measured, &document);
    cost_measure(measured->operations, &document);
    for (size_t i = 0; i < QUERIES; i++) {
        fprintf(stderr, "%zu elements, %s\n", elements, queries[i].xpath);
        ask(&measured->asked[i], &document, &queries[i]);
    }
}
