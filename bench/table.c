#include "table.h"

#include <stdio.h>

static const char *const names[PEERS] = {
    [LIBXML2] = "libxml2", [EXPAT] = "expat", [TABLE_LOOP] = "table loop", [TRANSEQ] = "transeq"};

struct row row_of(const char *words, size_t bytes)
{
    return (struct row){.words = words, .bytes = bytes};
}

void keep_least(double *least, double time)
{
    *least = *least == 0 || time < *least ? time : *least;
}

void tell_columns(void)
{
    printf("%-36s %9s %11s %7s", "", "bytes", "proved, us", "MB/s");
    for (int peer = 0; peer < PEERS; peer++) {
        printf(" %10s", names[peer]);
    }
    printf("\n");
}

bool tell_row(const struct row *row, const char *note)
{
    bool met = true;
    printf("%-36s %9zu %11.1f %7.0f", row->words, row->bytes, 1e6 * row->proved, (double)row->bytes / row->proved / 1e6);
    for (int peer = 0; peer < PEERS; peer++) {
        if (row->peers[peer] > 0) {
            printf(" %10.2f", row->peers[peer] / row->proved);
        } else {
            printf(" %10s", "-");
        }
    }
    for (int peer = 0; peer < PEERS; peer++) {
        if (row->targets[peer] > 0) {
            const bool reached = row->peers[peer] / row->proved >= row->targets[peer];
            printf("  %s >= %g %s", names[peer], row->targets[peer], reached ? "met" : "MISSED");
            met = met && reached;
        }
    }
    printf("%s%s\n", note[0] == '\0' ? "" : "  ", note);
    fflush(stdout);
    return met;
}
