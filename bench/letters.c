/* Measures the check on one long sequence of these letters or those, beside plain bases: letters ROUNDS FOLDER PLAIN KIND..
   FOLDER has what bench/run puts there: PLAIN.xml and KIND.xml, all of nearly one size. */
#include "../hosts/include/dreichnook.h"
#include "table.h"
#include "tools.h"

#include <stdlib.h>

/* Whatever the letters are, the check takes at most so many times as long as on plain bases. */
static const double most = 2.0;

struct letters {
    const char *kind;
    struct bytes listing;
    uint32_t rule;
    /* The best time in seconds. */
    double time;
};

static void take_turn(struct letters *of)
{
    uint64_t n[6];
    const double start = processor_time();
    of->rule = dreichnook_check(of->listing.at, of->listing.length, &n[0], &n[1], &n[2], &n[3], &n[4], &n[5]);
    keep_least(&of->time, processor_time() - start);
}

int main(int argc, char **argv)
{
    if (argc < 4 || atoi(argv[1]) < 1) {
        fprintf(stderr, "usage: letters ROUNDS FOLDER PLAIN KIND..\n");
        return 2;
    }
    const int rounds = atoi(argv[1]);
    const size_t count = (size_t)argc - 3;
    struct letters *all = room_for(count * sizeof *all);
    for (size_t i = 0; i < count; i++) {
        all[i] = (struct letters){.kind = argv[i + 3], .listing = listing_of(argv[2], argv[i + 3])};
    }
    for (int round = 0; round < rounds; round++) {
        for (size_t i = 0; i < count; i++) {
            take_turn(&all[i]);
        }
    }
    printf("One sequence, times as long as %s, by processor time, best of %d rounds\n", all[0].kind, rounds);
    printf("%-36s %9s %11s %7s\n", "", "bytes", "proved, us", "times");
    bool met = true;
    for (size_t i = 0; i < count; i++) {
        const double times = all[i].time / all[0].time;
        const bool reached = times <= most;
        printf("%-36s %9zu %11.1f %7.2f  <= %g %s; rule %u\n", all[i].kind, all[i].listing.length, 1e6 * all[i].time, times,
               most, reached ? "met" : "MISSED", (unsigned)all[i].rule);
        met = met && reached;
        free(all[i].listing.at);
    }
    free(all);
    return met ? 0 : 1;
}
