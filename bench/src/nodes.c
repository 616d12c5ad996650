#include "nodes.h"

#include "fail.h"

#include <string.h>

void nodes_add(struct nodes *nodes, long number)
{
    if (nodes->count == TB_NODES_ROOM || number < 0 || number > TB_MOST_ELEMENTS)
        fail("node %ld can't be in an answer after %zu others", number, nodes->count);
    nodes->numbers[nodes->count++] = (uint8_t)number;
}

bool nodes_equal(const struct nodes *a, const struct nodes *b)
{
    return a->count == b->count && memcmp(a->numbers, b->numbers, a->count) == 0;
}
