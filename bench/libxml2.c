/* The peer: libxml2, which reads a listing into a tree and validates it against the DTD. */
#include "libxml2.h"

#include <limits.h>
#include <malloc.h>

#include <libxml/parser.h>
#include <libxml/tree.h>
#include <libxml/valid.h>

static xmlDtdPtr dtd;
static xmlDocPtr tree;

/* Refusals are answers here, not messages. */
static void quiet(void *context, const char *message, ...)
{
    (void)context;
    (void)message;
}

bool libxml2_open(const char *dtd_file)
{
    LIBXML_TEST_VERSION
    /* Memory that a tree gave back is kept for the next one: asking the system for it each time would cost the peer up
       to a third of its speed. */
    mallopt(M_MMAP_MAX, 0);
    mallopt(M_TRIM_THRESHOLD, INT_MAX);
    dtd = xmlParseDTD(NULL, (const xmlChar *)dtd_file);
    xmlSetGenericErrorFunc(NULL, quiet);
    return dtd != NULL;
}

bool libxml2_read(const char *listing, size_t length)
{
    /* HUGE: a text of more than 10,000,000 bytes is refused otherwise. COMPACT: short texts stand inside their node,
       which is faster. NOERROR and NOWARNING: no messages. The DTD that the listing names is not fetched. */
    const int options = XML_PARSE_HUGE | XML_PARSE_COMPACT | XML_PARSE_NONET | XML_PARSE_NOERROR | XML_PARSE_NOWARNING;
    if (length > INT_MAX) {
        return false;
    }
    tree = xmlReadMemory(listing, (int)length, "listing.xml", NULL, options);
    if (tree == NULL) {
        return false;
    }
    xmlValidCtxtPtr context = xmlNewValidCtxt();
    if (context == NULL) {
        return false;
    }
    context->error = quiet;
    context->warning = quiet;
    const int valid = xmlValidateDtd(context, tree, dtd);
    xmlFreeValidCtxt(context);
    return valid == 1;
}

void libxml2_forget(void)
{
    xmlFreeDoc(tree);
    tree = NULL;
}

void libxml2_close(void)
{
    xmlFreeDtd(dtd);
    dtd = NULL;
    xmlCleanupParser();
}

const char *libxml2_version(void)
{
    return LIBXML_DOTTED_VERSION;
}
