#include "grow.h"

#include "document.h"

#include <string.h>

/* A document being written from its first tag to its last. */
struct growth {
    uint8_t *end;
    size_t elements;
    size_t open; /* how many elements are open; their types, outermost first: */
    enum type types[TB_MOST_ELEMENTS];
    uint32_t state;
};

/* The next number below a bound, of a fixed sequence (a linear congruence, of
 * which the high bits are good enough to shape a tree). */
static unsigned next(struct growth *growth, unsigned bound)
{
    growth->state = growth->state * 1664525u + 1013904223u;
    return (growth->state >> 16) % bound;
}

/* Stations and remarks have a text, one of fifty. */
static unsigned next_text(struct growth *growth, enum type type)
{
    return type == STATION || type == REMARK ? 1 + next(growth, 50) : 0;
}

static void open_element(struct growth *growth, enum type type)
{
    unsigned text = next_text(growth, type);
    uint8_t token[] = {1, (uint8_t)type, (uint8_t)(text >> 8), (uint8_t)text};
    memcpy(growth->end, token, sizeof token);
    growth->end += sizeof token;
    growth->types[growth->open++] = type;
    growth->elements++;
}

static void close_element(struct growth *growth)
{
    *growth->end++ = 2;
    growth->open--;
}

/* Groups three deep hold no further group, as networks, regions and arrays do;
 * four stations are opened for each time that a group is closed. */
static void go_on_in_group(struct growth *growth)
{
    unsigned chance = next(growth, 100);
    if (chance < 20 && growth->open <= 3)
        open_element(growth, GROUP);
    else if (chance < 84)
        open_element(growth, STATION);
    else
        close_element(growth);
}

/* Opens an element in the innermost open one, or closes that. */
static void go_on(struct growth *growth)
{
    switch (growth->types[growth->open - 1]) {
    case ARCHIVE:
        open_element(growth, GROUP);
        break;
    case GROUP:
        go_on_in_group(growth);
        break;
    case STATION:
        if (next(growth, 100) < 40)
            open_element(growth, REMARK);
        else
            close_element(growth);
        break;
    default:
        if (next(growth, 100) < 35)
            open_element(growth, STATION);
        else
            close_element(growth);
    }
}

size_t grow(uint8_t *tre, size_t elements)
{
    static const uint8_t header[] = {'T', 'R', 'E', 0, 1};
    struct growth growth = {.end = tre + sizeof header, .state = 1};
    memcpy(tre, header, sizeof header);
    open_element(&growth, ARCHIVE);
    while (growth.elements < elements)
        go_on(&growth);
    while (growth.open > 0)
        close_element(&growth);
    return (size_t)(growth.end - tre);
}
