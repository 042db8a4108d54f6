/* Measures the proved check and layout reader beside libxml2 and expat: listings ROUNDS DTD FOLDER TRAP..
   FOLDER has what bench/run puts there: the published listings, MIX-SIZE.xml for each mix and size, and TRAP.xml of 16 MiB
   for each trap. */
#include "../hosts/include/dreichnook.h"
#include "expat_peer.h"
#include "libxml2.h"
#include "table.h"
#include "tools.h"
#include "trial.h"

#include <stdlib.h>
#include <string.h>

/* A proved call on a listing: 0, or the number of the broken rule, with its place. */
typedef size_t reader(const uint8_t *listing, size_t length, size_t *place);

/* The check, without its counts. */
static size_t check(const uint8_t *listing, size_t length, size_t *place)
{
    uint64_t at = 0;
    uint64_t total = 0;
    uint64_t skipped = 0;
    uint64_t features = 0;
    uint64_t judged = 0;
    uint64_t unjudged = 0;
    uint32_t rule = dreichnook_check(listing, length, &at, &total, &skipped, &features, &judged, &unjudged);
    *place = at;
    return rule;
}

/* How many times as fast as libxml2 the check and the layout reader must be; 0 without a target. */
struct target {
    double check;
    double layout;
};

/* Listings as people write them, with their line breaks: files of tests/specimens/. The first is the one of 4 KiB. */
static const struct published {
    const char *name;
    const char *words;
    struct target target;
} published[] = {
    {"004-optional-parts", "published, 3,924 bytes", {6.0, 0}},
    {"annex-iii", "published, Annex III", {0, 0}},
};

/* The mixes with their targets at 16 MiB. */
static const struct mix {
    const char *name;
    struct target at_most;
} mixes[] = {
    {"features", {4.0, 6.0}},
    {"sequences", {6.0, 8.0}},
    {"residues", {1.0, 1.5}},
};

/* The sizes in bytes, as they are in the file names and in words. At 4 KiB all mixes have one target. */
static const struct size {
    size_t bytes;
    const char *name;
    const char *words;
} sizes[] = {
    {4096, "4096", "4 KiB"},
    {61440, "61440", "60 KiB"},
    {1048576, "1048576", "1 MiB"},
    {16777216, "16777216", "16 MiB"},
};
static const struct target small = {6.0, 0};

/* A turn reads a listing as often as it takes to read so much: a single short one says little. */
static const size_t turn_bytes = 1 << 20;

/* Each trap must be answered within this time. */
static const double longest_seconds = 2.0;

/* ---- a turn of each: the time for one listing */

static double reader_turn(reader *ask, struct bytes listing, size_t turns, size_t *rule, size_t *place)
{
    const double start = processor_time();
    for (size_t i = 0; i < turns; i++) {
        *rule = ask(listing.at, listing.length, place);
    }
    return (processor_time() - start) / (double)turns;
}

/* The tree is freed each time: whoever reads listings so has to. And a clock that is asked for each would count itself. */
static double libxml2_turn(struct bytes listing, size_t turns, bool *accepted)
{
    const double start = processor_time();
    for (size_t i = 0; i < turns; i++) {
        *accepted = libxml2_read((const char *)listing.at, listing.length);
        libxml2_forget();
    }
    return (processor_time() - start) / (double)turns;
}

static double expat_turn(struct bytes listing, size_t turns, bool *accepted)
{
    const double start = processor_time();
    for (size_t i = 0; i < turns; i++) {
        *accepted = expat_read((const char *)listing.at, listing.length);
    }
    return (processor_time() - start) / (double)turns;
}

/* ---- the mixes */

/* One round: a turn of each peer, and three of each proved call, whose turns are short. */
static void take_round(struct row *checked, struct row *laid, struct bytes listing)
{
    const size_t turns = listing.length < turn_bytes ? turn_bytes / listing.length : 1;
    bool by_libxml2 = false;
    bool by_expat = false;
    keep_least(&checked->peers[LIBXML2], libxml2_turn(listing, turns, &by_libxml2));
    keep_least(&checked->peers[EXPAT], expat_turn(listing, turns, &by_expat));
    size_t rule = 0;
    size_t place = 0;
    for (int i = 0; i < 3 && rule == 0; i++) {
        keep_least(&checked->proved, reader_turn(check, listing, turns, &rule, &place));
        keep_least(&laid->proved, reader_turn(trial_layout, listing, turns, &rule, &place));
    }
    if (!by_libxml2 || !by_expat || rule != 0) {
        die(checked->words, "not accepted by all");
    }
}

/* The rows of one listing: the check, and the layout where it has a target. True if the targets are met. */
static bool measure_listing(const char *name, const char *words, struct target target, const char *folder, int rounds)
{
    char layout_words[96];
    snprintf(layout_words, sizeof layout_words, "%s, the layout alone", words);
    const struct bytes listing = listing_of(folder, name);
    struct row checked = row_of(words, listing.length);
    struct row laid = row_of(layout_words, listing.length);
    for (int round = 0; round < rounds; round++) {
        take_round(&checked, &laid, listing);
    }
    free(listing.at);
    memcpy(laid.peers, checked.peers, sizeof laid.peers);
    checked.targets[LIBXML2] = target.check;
    laid.targets[LIBXML2] = target.layout;
    const bool met = tell_row(&checked, "");
    return (target.layout == 0 || tell_row(&laid, "")) && met;
}

static bool measure_mix(const struct mix *mix, const struct size *size, const char *folder, int rounds)
{
    static const struct target none = {0, 0};
    const bool is_longest = size == &sizes[COUNT(sizes) - 1];
    const bool is_shortest = size == &sizes[0];
    char name[64];
    char words[64];
    snprintf(name, sizeof name, "%s-%s", mix->name, size->name);
    snprintf(words, sizeof words, "%s, %s", mix->name, size->words);
    return measure_listing(name, words, is_longest ? mix->at_most : is_shortest ? small : none, folder, rounds);
}

/* ---- the traps */

/* One row. The longest time on the wall must be short enough, for a trap is a promise about each. */
static bool measure_trap(const char *kind, const char *folder)
{
    const struct bytes listing = listing_of(folder, kind);
    struct row row = row_of(kind, listing.length);
    double longest = 0;
    size_t rule = 0;
    size_t place = 0;
    for (int turn = 0; turn < 3; turn++) {
        bool accepted = false;
        keep_least(&row.peers[LIBXML2], libxml2_turn(listing, 1, &accepted));
        keep_least(&row.peers[EXPAT], expat_turn(listing, 1, &accepted));
        const double start = wall_time();
        keep_least(&row.proved, reader_turn(check, listing, 1, &rule, &place));
        const double time = wall_time() - start;
        longest = time > longest ? time : longest;
    }
    free(listing.at);
    const bool met = longest <= longest_seconds;
    char answer[64] = "accepted";
    if (rule != 0) {
        snprintf(answer, sizeof answer, "rule %zu at %zu", rule, place);
    }
    char note[128];
    snprintf(note, sizeof note, "longest %.2f s <= %.0f s %s; %s", longest, longest_seconds, met ? "met" : "MISSED", answer);
    tell_row(&row, note);
    return met;
}

/* Whether libxml2 does validate: it takes a listing, and refuses the same without a part that the DTD asks for. */
static bool libxml2_validates(void)
{
    static const char format[] =
        "<?xml version=\"1.0\" encoding=\"UTF-8\"?><ST26SequenceListing dtdVersion=\"1_2\"><ApplicantFileReference/>"
        "<InventionTitle languageCode=\"en\"/>%s<SequenceData sequenceIDNumber=\"1\"><INSDSeq><INSDSeq_length/>"
        "<INSDSeq_moltype/><INSDSeq_division/><INSDSeq_sequence>000</INSDSeq_sequence></INSDSeq></SequenceData>"
        "</ST26SequenceListing>";
    static const char *const parts[] = {"<SequenceTotalQuantity>1</SequenceTotalQuantity>", ""};
    bool accepted[2];
    for (int i = 0; i < 2; i++) {
        char text[sizeof format + 100];
        const int length = snprintf(text, sizeof text, format, parts[i]);
        accepted[i] = libxml2_read(text, (size_t)length);
        libxml2_forget();
    }
    return accepted[0] && !accepted[1];
}

int main(int argc, char **argv)
{
    if (argc < 4 || atoi(argv[1]) < 1) {
        fprintf(stderr, "usage: listings ROUNDS DTD FOLDER TRAP..\n");
        return 2;
    }
    const int rounds = atoi(argv[1]);
    const char *folder = argv[3];
    bool met = true;
    if (!libxml2_open(argv[2])) {
        die(argv[2], "no DTD");
    }
    if (!libxml2_validates()) {
        die(argv[2], "libxml2 doesn't validate by it");
    }
    expat_open();
    printf("Times as fast as each peer, by processor time, best of %d rounds, traps of 3; libxml2 %s, %s\n", rounds,
           libxml2_version(), expat_version());
    tell_columns();
    for (size_t i = 0; i < COUNT(published); i++) {
        const struct published *it = &published[i];
        met = measure_listing(it->name, it->words, it->target, folder, rounds) && met;
    }
    for (size_t i = 0; i < COUNT(sizes); i++) {
        for (size_t j = 0; j < COUNT(mixes); j++) {
            met = measure_mix(&mixes[j], &sizes[i], folder, rounds) && met;
        }
    }
    for (int i = 4; i < argc; i++) {
        met = measure_trap(argv[i], folder) && met;
    }
    expat_close();
    libxml2_close();
    return met ? 0 : 1;
}
