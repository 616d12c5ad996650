#include "ours.h"

#include "fail.h"

/* What an accepted call counts. */
static size_t accepted(const char *call, tb_answer answer)
{
    if (answer.number != TB_ACCEPTED)
        fail("%s refuses with %d", call, answer.number);
    return answer.count;
}

void ours_open(struct ours *ours, const struct document *document, const struct query *query)
{
    ours->document = document;
    ours->query = query;
    ours_translate(ours);
}

void ours_select(void *with)
{
    struct ours *ours = with;
    ours->nodes.count = accepted("tb_select", tb_select(
        graph, sizeof graph, ours->document->edg, ours->document->edg_len,
        ours->query->qry, ours->query->qry_len,
        ours->nodes.numbers, sizeof ours->nodes.numbers, ours->work, sizeof ours->work));
}

void ours_run(void *with)
{
    struct ours *ours = with;
    ours->nodes.count = accepted("tb_run", tb_run(
        graph, sizeof graph, ours->document->edg, ours->document->edg_len,
        ours->rel, ours->rel_len,
        ours->nodes.numbers, sizeof ours->nodes.numbers, ours->work, sizeof ours->work));
}

void ours_translate(void *with)
{
    struct ours *ours = with;
    ours->rel_len = accepted("tb_translate", tb_translate(
        graph, sizeof graph, ours->query->qry, ours->query->qry_len,
        ours->rel, sizeof ours->rel));
}

void ours_check(void *with)
{
    struct ours *ours = with;
    tb_checked checked = tb_check(graph, sizeof graph, ours->rel, ours->rel_len);
    if (checked.number != TB_ACCEPTED)
        fail("tb_check refuses with %d", checked.number);
}

void files_shred(void *with)
{
    struct files *files = with;
    files->written = accepted("tb_shred", tb_shred(
        graph, sizeof graph, files->document->tre, files->document->tre_len,
        files->out, sizeof files->out));
}

void files_rebuild(void *with)
{
    struct files *files = with;
    files->written = accepted("tb_rebuild", tb_rebuild(
        graph, sizeof graph, files->document->edg, files->document->edg_len,
        files->out, sizeof files->out));
}

void files_read(void *with)
{
    struct files *files = with;
    files->written = 0;
    accepted("tb_read_tables", tb_read_tables(
        graph, sizeof graph, files->document->edg, files->document->edg_len));
}
