/* Node numbers in document order: what every way of asking answers. */
#ifndef NODES_H
#define NODES_H

#include "trammelbud.h"

#include <stdbool.h>

struct nodes {
    size_t count;
    uint8_t numbers[TB_NODES_ROOM];
};

void nodes_add(struct nodes *nodes, long number);

bool nodes_equal(const struct nodes *a, const struct nodes *b);

#endif
