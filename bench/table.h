/* The table of ratios: how many times as fast as each peer the proved call is. A ratio's times are of one run. */
#ifndef TABLE_H
#define TABLE_H

#include <stdbool.h>
#include <stddef.h>

/* The peers, in the order of the columns. */
enum peer { LIBXML2, EXPAT, TABLE_LOOP, TRANSEQ, PEERS };

struct row {
    const char *words;
    /* How many bytes are read. */
    size_t bytes;
    /* The best time of the proved call, and of each peer that was asked the same, else 0; in seconds. */
    double proved;
    double peers[PEERS];
    /* How many times as fast as a peer the proved call must be at least; 0 without a target. */
    double targets[PEERS];
};

/* A row without times yet. */
struct row row_of(const char *words, size_t bytes);

/* Keeps the time if it is the least, or the first. */
void keep_least(double *least, double time);

void tell_columns(void);

/* Prints a row with its targets and a note; true if the targets are met. */
bool tell_row(const struct row *row, const char *note);

#endif
