/* The peer expat: it reads a listing and calls back for each tag and text; no tree, no DTD.
   The file isn't called expat.h, which is the library's own header. */
#ifndef EXPAT_PEER_H
#define EXPAT_PEER_H

#include <stdbool.h>
#include <stddef.h>

/* Makes the parser, once and beforehand. */
void expat_open(void);

/* Reads a listing; false if the peer refuses it. */
bool expat_read(const char *listing, size_t length);

void expat_close(void);

/* The version of the library. */
const char *expat_version(void);

#endif
