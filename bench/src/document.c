#include "document.h"

#include "fail.h"
#include "grow.h"

#include <string.h>

const char *const type_names[TYPES] = {"archive", "group", "station", "remark"};

const uint8_t graph[15] = {'G', 'R', 'A', 0, 1, 4, 0, 0, 2, 0, 6, 0, 8, 0, 4};

static const uint8_t example[] = {
    'T', 'R', 'E', 0, 1,
    1, ARCHIVE, 0, 0,
    1, GROUP, 0, 0,
    1, GROUP, 0, 0,
    1, STATION, 0, 7,
    1, REMARK, 0, 9,
    1, STATION, 0, 8,
    2, 2, 2, 2,
    1, STATION, 0, 7,
    2, 2,
    1, GROUP, 0, 0,
    2, 2,
};

enum { EXAMPLE_ELEMENTS = 8 };

static void write_document(struct document *document)
{
    if (document->elements == EXAMPLE_ELEMENTS) {
        memcpy(document->tre, example, sizeof example);
        document->tre_len = sizeof example;
    } else {
        document->tre_len = grow(document->tre, document->elements);
    }
}

static void write_tables(struct document *document)
{
    tb_answer shredded = tb_shred(graph, sizeof graph, document->tre, document->tre_len,
                                  document->edg, sizeof document->edg);
    if (shredded.number != TB_ACCEPTED)
        fail("tb_shred refuses the document of %zu elements: %d",
             document->elements, shredded.number);
    document->edg_len = shredded.count;
}

void document_make(struct document *document, size_t elements)
{
    document->elements = elements;
    write_document(document);
    write_tables(document);
}
