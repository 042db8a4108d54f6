/* What the measuring programs share: clocks, memory, and the end where something can't be measured. */
#ifndef TOOLS_H
#define TOOLS_H

#include <stddef.h>
#include <stdint.h>
#include <stdio.h>

#define COUNT(array) (sizeof(array) / sizeof *(array))

/* Seconds of the processor's time that this program took. Readers are compared by it: where other programs run beside
   them, the time on the wall would flatter the one with the shorter turns, which is interrupted less often. */
double processor_time(void);

/* Seconds on the wall, from any start. Limits are meant by it. */
double wall_time(void);

/* Ends the program with status 2. */
_Noreturn void die(const char *what, const char *why);

/* Memory for so many bytes. */
void *room_for(size_t bytes);

struct bytes {
    uint8_t *at;
    size_t length;
};

/* The whole of a file. */
struct bytes load(const char *path);

/* The whole of FOLDER/NAME.xml. */
struct bytes listing_of(const char *folder, const char *name);

/* What `write` writes, given `size`. */
struct bytes text_of(void (*write)(FILE *text, size_t size), size_t size);

/* FOLDER/NAME with its ending, in memory of its own. */
char *path_of(const char *folder, const char *name, const char *ending);

#endif
