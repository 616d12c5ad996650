#include "xml.h"

struct writer {
    struct text *xml;
    const uint8_t *token;
    size_t open;
    const char *names[TB_MOST_ELEMENTS];
};

static void write_open(struct writer *writer)
{
    const char *name = type_names[writer->token[1]];
    unsigned text = writer->token[2] << 8 | writer->token[3];
    writer->token += 4;
    if (text == 0 && *writer->token == 2) {
        text_add(writer->xml, "<%s/>", name);
        writer->token += 1;
        return;
    }
    text_add(writer->xml, "<%s>", name);
    if (text != 0)
        text_add(writer->xml, "%u", text);
    writer->names[writer->open++] = name;
}

static void write_close(struct writer *writer)
{
    text_add(writer->xml, "</%s>", writer->names[--writer->open]);
    writer->token += 1;
}

void xml_write(struct text *xml, const struct document *document)
{
    const uint8_t *end = document->tre + document->tre_len;
    struct writer writer = {.xml = xml, .token = document->tre + 5};
    text_clear(xml);
    while (writer.token < end)
        if (*writer.token == 1)
            write_open(&writer);
        else
            write_close(&writer);
}
