/* Measures what each call of the library costs, for a page of many figures: page ROUNDS FOLDER
   FOLDER has what bench/run makes: MIX-SIZE.xml. Asked of are the last sequence that isn't skipped and its first feature,
   which is answered with its spans.
   Status 1: a call with the index, or the one that makes it, takes too much beside the check. */
#include "../hosts/include/dreichnook.h"
#include "table.h"
#include "tools.h"

#include <stdlib.h>

static const char *const mixes[] = {"features", "sequences", "residues"};
static const struct size {
    const char *name;
    /* Whether the targets hold there. */
    bool targeted;
} sizes[] = {{"4096", true}, {"61440", false}, {"16777216", true}};

/* The most that a call may take, in checks of the same listing: the maker of the index; a lookup with it. */
static const double most_for_maker = 1.5;
static const double most_for_lookup = 1.7;

/* A turn asks as often as it takes to read so much: a single answer on a short listing says little. */
static const size_t turn_bytes = 1 << 20;

/* Room that any answer fits. */
enum { ROOM = 1 << 24 };
static uint32_t numbers[ROOM];
static uint8_t letters[ROOM];
static uint8_t made[DREICHNOOK_INDEX_ROOM(ROOM)];

/* ---- the calls: 0, or the number of the refusal */

struct asked {
    struct bytes listing;
    /* NULL: without an index. */
    const struct bytes *index;
    uint64_t sequence;
};

typedef uint32_t call(const struct asked *it);

/* The plain function, or with an index the indexed one. */
#define ASK(name, ...)                                                                                     \
    (it->index == NULL ? dreichnook_##name(it->listing.at, it->listing.length, __VA_ARGS__)                \
                       : dreichnook_indexed_##name(it->listing.at, it->listing.length, it->index->at,      \
                                                   it->index->length, __VA_ARGS__))

static uint32_t check(const struct asked *it)
{
    uint64_t n[6];
    if (it->index != NULL) {
        return dreichnook_index_check(it->listing.at, it->listing.length, it->index->at, it->index->length, &n[0]);
    }
    return dreichnook_check(it->listing.at, it->listing.length, &n[0], &n[1], &n[2], &n[3], &n[4], &n[5]);
}

static uint32_t sequence(const struct asked *it)
{
    uint64_t n[3];
    uint8_t kind;
    return ASK(sequence, it->sequence, &n[0], &kind, &n[1], &n[2]);
}

static uint32_t feature(const struct asked *it)
{
    uint64_t n[6];
    uint8_t operator_;
    return ASK(feature, it->sequence, 1, numbers, ROOM, &n[0], &n[1], &n[2], &n[3], &n[4], &operator_, &n[5]);
}

static uint32_t qualifier(const struct asked *it)
{
    uint64_t n[5];
    uint8_t present;
    return ASK(qualifier, it->sequence, 1, 1, &n[0], &n[1], &n[2], &present, &n[3], &n[4]);
}

static uint32_t translations(const struct asked *it)
{
    uint64_t n[2];
    return ASK(translations, it->sequence, letters, ROOM, &n[0], &n[1]);
}

static uint32_t make(const struct asked *it)
{
    uint64_t n[2];
    return dreichnook_index(it->listing.at, it->listing.length, made, sizeof made, &n[0], &n[1]);
}

/* The calls that there are with an index and without; the first is the check. */
static const struct column {
    const char *name;
    call *ask;
} columns[] = {
    {"check", check}, {"sequence", sequence}, {"feature", feature},
    {"qualifier", qualifier}, {"translations", translations},
};

/* ---- the times */

/* The best times for one listing, in seconds. */
struct times {
    char name[64];
    double alone[COUNT(columns)];
    double indexed[COUNT(columns)];
    double maker;
};

/* The last sequence that is shown. */
static uint64_t last_sequence(struct bytes listing, const char *name)
{
    uint64_t place, total, skipped, features, judged, unjudged;
    if (dreichnook_check(listing.at, listing.length, &place, &total, &skipped, &features, &judged, &unjudged) != 0) {
        die(name, "not accepted");
    }
    while (total > 1 && sequence(&(struct asked){listing, NULL, total}) != 0) {
        total--;
    }
    return total;
}

static void take_turn(double *best, const char *name, call *ask, const struct asked *it)
{
    const size_t turns = it->listing.length < turn_bytes ? turn_bytes / it->listing.length : 1;
    const double start = processor_time();
    for (size_t i = 0; i < turns; i++) {
        if (ask(it) != 0) {
            die(name, "refused");
        }
    }
    keep_least(best, (processor_time() - start) / (double)turns);
}

static void take_times(struct times *times, const char *folder, int rounds)
{
    const struct bytes listing = listing_of(folder, times->name);
    const struct asked alone = {listing, NULL, last_sequence(listing, times->name)};
    uint64_t place;
    uint64_t size;
    if (dreichnook_index(listing.at, listing.length, made, sizeof made, &place, &size) != 0) {
        die(times->name, "no index");
    }
    const struct bytes index = {made, (size_t)size};
    const struct asked indexed = {listing, &index, alone.sequence};
    for (int round = 0; round < rounds; round++) {
        for (size_t i = 0; i < COUNT(columns); i++) {
            take_turn(&times->alone[i], columns[i].name, columns[i].ask, &alone);
            take_turn(&times->indexed[i], columns[i].name, columns[i].ask, &indexed);
        }
        take_turn(&times->maker, "index", make, &alone);
    }
    free(listing.at);
}

/* ---- the tables */

/* A row of the second table: each call beside the check. True if the targets are met. */
static bool tell_ratios(const struct times *times, bool targeted)
{
    double longest = 0;
    const double maker = times->maker / times->alone[0];
    printf("\n%-22s%14.2f", times->name, maker);
    for (size_t i = 0; i < COUNT(columns); i++) {
        const double ratio = times->indexed[i] / times->alone[0];
        longest = ratio > longest ? ratio : longest;
        printf("%14.2f", ratio);
    }
    if (!targeted) {
        return true;
    }
    const bool made_in_time = maker <= most_for_maker;
    const bool found_in_time = longest <= most_for_lookup;
    printf("  maker <= %g %s  lookups <= %g %s", most_for_maker, made_in_time ? "met" : "MISSED", most_for_lookup,
           found_in_time ? "met" : "MISSED");
    return made_in_time && found_in_time;
}

/* The names of the columns, the first one named so. */
static void tell_names(const char *first)
{
    for (size_t i = 0; i < COUNT(columns); i++) {
        printf("%14s", i == 0 ? first : columns[i].name);
    }
}

int main(int argc, char **argv)
{
    if (argc != 3 || atoi(argv[1]) < 1) {
        fprintf(stderr, "usage: page ROUNDS FOLDER\n");
        return 2;
    }
    const int rounds = atoi(argv[1]);
    static struct times times[COUNT(sizes) * COUNT(mixes)];
    for (size_t i = 0; i < COUNT(times); i++) {
        snprintf(times[i].name, sizeof times[i].name, "%s-%s", mixes[i % COUNT(mixes)], sizes[i / COUNT(mixes)].name);
        take_times(&times[i], argv[2], rounds);
    }
    printf("A page of n figures takes n of these: microseconds of a call, best of %d rounds\n%-22s", rounds, "");
    tell_names("check");
    for (size_t i = 0; i < COUNT(times); i++) {
        printf("\n%-22s", times[i].name);
        for (size_t k = 0; k < COUNT(columns); k++) {
            printf("%14.1f", 1e6 * times[i].alone[k]);
        }
    }
    printf("\n\nThe index: times the check, of the call that makes it and of the calls with it\n");
    printf("%-22s%14s", "", "maker");
    tell_names("index check");
    bool met = true;
    for (size_t i = 0; i < COUNT(times); i++) {
        met = tell_ratios(&times[i], sizes[i / COUNT(mixes)].targeted) && met;
    }
    printf("\n");
    return met ? 0 : 1;
}
