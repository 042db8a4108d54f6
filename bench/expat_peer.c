#include "expat_peer.h"
#include "tools.h"

#include <expat.h>
#include <limits.h>

static XML_Parser parser;

/* What is called back counts, so that there is something to do with each tag and text. */
static size_t tags;
static size_t characters;

static void on_start(void *data, const XML_Char *name, const XML_Char **attributes)
{
    (void)data;
    (void)name;
    (void)attributes;
    tags++;
}

static void on_end(void *data, const XML_Char *name)
{
    (void)data;
    (void)name;
    tags++;
}

static void on_text(void *data, const XML_Char *text, int length)
{
    (void)data;
    (void)text;
    characters += (size_t)length;
}

void expat_open(void)
{
    parser = XML_ParserCreate(NULL);
    if (parser == NULL) {
        die("expat", "no parser");
    }
}

bool expat_read(const char *listing, size_t length)
{
    /* The parser keeps its memory from one listing to the next. */
    if (length > INT_MAX || XML_ParserReset(parser, NULL) != XML_TRUE) {
        return false;
    }
    XML_SetElementHandler(parser, on_start, on_end);
    XML_SetCharacterDataHandler(parser, on_text);
    return XML_Parse(parser, listing, (int)length, XML_TRUE) == XML_STATUS_OK;
}

void expat_close(void)
{
    XML_ParserFree(parser);
}

const char *expat_version(void)
{
    return XML_ExpatVersion();
}
