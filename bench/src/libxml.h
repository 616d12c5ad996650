/* libxml2: the document as XML, asked in XPath. */
#ifndef LIBXML_H
#define LIBXML_H

#include "document.h"
#include "nodes.h"
#include "query.h"
#include "text.h"

#include <libxml/xpath.h>

struct libxml {
    struct text xml;
    const xmlChar *xpath;
    xmlDocPtr tree;
    xmlXPathContextPtr context;
    xmlXPathCompExprPtr compiled;
    struct nodes nodes; /* the last answer */
};

const char *libxml_version(void);

/* Parses and compiles what `libxml_tree` asks. */
void libxml_open(struct libxml *libxml, const struct document *document, const struct query *query);
void libxml_close(struct libxml *libxml);

/* Ways to ask, for a task: from the bytes of the XML and the XPath, or over the
 * tree and the expression that stand ready. */
void libxml_bytes(void *libxml);
void libxml_tree(void *libxml);

#endif
