#include "libxml.h"

#include "fail.h"
#include "xml.h"

#include <libxml/parser.h>
#include <libxml/xpathInternals.h>

const char *libxml_version(void)
{
    return LIBXML_DOTTED_VERSION;
}

/* Short texts are kept inside their nodes, which is the quickest that libxml2
 * can do. The elements are numbered in document order by libxml2 itself: that
 * is what the answer needs, and what it offers to make XPath faster. */
static xmlDocPtr parse(const struct text *xml)
{
    xmlDocPtr tree = xmlReadMemory(xml->bytes, (int)xml->length, NULL, NULL,
                                   XML_PARSE_COMPACT | XML_PARSE_NONET);
    if (tree == NULL)
        fail("libxml2 doesn't read the XML");
    xmlXPathOrderDocElems(tree);
    return tree;
}

static xmlXPathContextPtr context_of(xmlDocPtr tree)
{
    xmlXPathContextPtr context = xmlXPathNewContext(tree);
    if (context == NULL || xmlXPathSetContextNode((xmlNodePtr)tree, context) != 0)
        fail("libxml2 makes no context");
    return context;
}

/* xmlXPathOrderDocElems leaves an element's number, below zero, in the field
 * that holds the content of other nodes. */
static long number_of(const xmlNode *node)
{
    return -(long)(intptr_t)node->content;
}

/* Takes the nodes out of an answer of libxml2 and frees it. */
static void take(struct nodes *nodes, xmlXPathObjectPtr answer)
{
    if (answer == NULL || answer->type != XPATH_NODESET)
        fail("libxml2 answers no nodes");
    nodes->count = 0;
    for (int i = 0; i < xmlXPathNodeSetGetLength(answer->nodesetval); i++)
        nodes_add(nodes, number_of(answer->nodesetval->nodeTab[i]));
    xmlXPathFreeObject(answer);
}

void libxml_open(struct libxml *libxml, const struct document *document, const struct query *query)
{
    xmlInitParser();
    xml_write(&libxml->xml, document);
    libxml->xpath = (const xmlChar *)query->xpath;
    libxml->tree = parse(&libxml->xml);
    libxml->context = context_of(libxml->tree);
    libxml->compiled = xmlXPathCompile(libxml->xpath);
    if (libxml->compiled == NULL)
        fail("libxml2 doesn't read %s", query->xpath);
}

void libxml_close(struct libxml *libxml)
{
    xmlXPathFreeCompExpr(libxml->compiled);
    xmlXPathFreeContext(libxml->context);
    xmlFreeDoc(libxml->tree);
}

void libxml_bytes(void *with)
{
    struct libxml *libxml = with;
    xmlDocPtr tree = parse(&libxml->xml);
    xmlXPathContextPtr context = context_of(tree);
    take(&libxml->nodes, xmlXPathEvalExpression(libxml->xpath, context));
    xmlXPathFreeContext(context);
    xmlFreeDoc(tree);
}

void libxml_tree(void *with)
{
    struct libxml *libxml = with;
    take(&libxml->nodes, xmlXPathCompiledEval(libxml->compiled, libxml->context));
}
