/* Trammelbud: the files, asked through the C interface. */
#ifndef OURS_H
#define OURS_H

#include "document.h"
#include "nodes.h"
#include "query.h"

/* A query asked of a document. */
struct ours {
    const struct document *document;
    const struct query *query;
    size_t rel_len;
    uint8_t rel[TB_PROGRAM_ROOM];
    struct nodes nodes; /* the last answer */
    uint8_t work[TB_WORK_ROOM];
};

/* Translates what `ours_run` and `ours_check` take. */
void ours_open(struct ours *ours, const struct document *document, const struct query *query);

/* Calls to time, for a task. */
void ours_select(void *ours);
void ours_run(void *ours);
void ours_translate(void *ours);
void ours_check(void *ours);

/* A document converted, without a query. */
struct files {
    const struct document *document;
    size_t written;
    uint8_t out[TB_DOCUMENT_ROOM]; /* tables are shorter */
};

void files_shred(void *files);
void files_rebuild(void *files);
void files_read(void *files);

#endif
