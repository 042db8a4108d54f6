/* The peer: libxml2, which reads a listing into a tree and validates it against the DTD. */
#ifndef LIBXML2_H
#define LIBXML2_H

#include <stdbool.h>
#include <stddef.h>

/* Parses the DTD, once and beforehand; false if it can't. */
bool libxml2_open(const char *dtd_file);

/* Reads and validates a listing; false if the peer refuses it. The tree is kept until libxml2_forget. */
bool libxml2_read(const char *listing, size_t length);

/* Frees the tree. */
void libxml2_forget(void);

void libxml2_close(void);

/* The version of the library. */
const char *libxml2_version(void);

#endif
