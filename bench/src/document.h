/* The documents that are asked: archives of groups, stations and remarks under
 * the graph of examples/stations. */
#ifndef DOCUMENT_H
#define DOCUMENT_H

#include "trammelbud.h"

enum type { ARCHIVE, GROUP, STATION, REMARK, TYPES };

extern const char *const type_names[TYPES];

extern const uint8_t graph[15];

struct document {
    size_t elements;
    size_t tre_len;
    size_t edg_len;
    uint8_t tre[TB_DOCUMENT_ROOM];
    uint8_t edg[TB_TABLES_ROOM];
};

/* Makes the document of so many elements: for 8 the example, else one that
 * `grow.h` makes. The same number always gives the same bytes. */
void document_make(struct document *document, size_t elements);

#endif
