#include "text.h"

#include "fail.h"

#include <stdarg.h>
#include <stdio.h>

void text_clear(struct text *text)
{
    text->length = 0;
    text->bytes[0] = 0;
}

void text_add(struct text *text, const char *format, ...)
{
    size_t room = sizeof text->bytes - text->length;
    va_list values;
    va_start(values, format);
    int added = vsnprintf(text->bytes + text->length, room, format, values);
    va_end(values);
    if (added < 0 || (size_t)added >= room)
        fail("a text is longer than %zu bytes", sizeof text->bytes);
    text->length += (size_t)added;
}
