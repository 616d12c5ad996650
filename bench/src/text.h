/* Text that is added to at its end: the XML of a document, the SQL of a program. */
#ifndef TEXT_H
#define TEXT_H

#include <stddef.h>

struct text {
    size_t length;
    char bytes[16384]; /* ends with a 0 that `length` doesn't count */
};

void text_clear(struct text *text);

/* Adds what printf would print. */
void text_add(struct text *text, const char *format, ...) __attribute__((format(printf, 2, 3)));

#endif
