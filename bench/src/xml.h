/* A document as XML, as short as it can be said: no white space, an empty tag
 * for an element without text and children, and for a text its number in
 * decimal. */
#ifndef XML_H
#define XML_H

#include "document.h"
#include "text.h"

void xml_write(struct text *xml, const struct document *document);

#endif
