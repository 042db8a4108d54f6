/*
 * index_test FILE..: tries the index of each listing: made, checked, read, and lent with every lookup.
 *
 * scripts/memory runs it, where all memory that is lent is watched. Status 0: all is as the header says.
 */
#include "dreichnook.h"

#include <stdio.h>
#include <stdlib.h>
#include <string.h>

/* Lent for answers, and the pattern that it has beforehand. */
enum { ROOM = 512, UNTOUCHED = 0xa5 };

#define REQUIRE(holds)                                                                 \
    do {                                                                               \
        if (!(holds)) {                                                                \
            fprintf(stderr, "index_test.c:%d: not so: %s\n", __LINE__, #holds);        \
            exit(1);                                                                   \
        }                                                                              \
    } while (0)

struct lent {
    const uint8_t *at;
    size_t length;
};

static struct lent listing;

/* Memory of exactly that size, so that it is seen where a call leaves it. */
static uint8_t *room_for(size_t size)
{
    uint8_t *room = malloc(size > 0 ? size : 1);
    REQUIRE(room != NULL);
    return room;
}

/* ---- the lookups */

enum lookup { SEQUENCE, FEATURE, QUALIFIER, TRANSLATION, TRANSLATIONS, LOOKUPS };

/* All that a lookup may set; the place is the first of the numbers. Two answers are compared byte for byte. */
struct answer {
    uint64_t numbers[6];
    uint8_t byte;
    uint32_t refusal;
    uint32_t out[ROOM];
};

/* With an index, or with NULL alone; `room` counts numbers of 32 bits. */
static void ask_in(size_t room, struct answer *answer, const struct lent *index, enum lookup lookup, uint64_t k,
                   uint64_t j, uint64_t i)
{
#define ASK(name, ...)                                                                                     \
    (index == NULL ? dreichnook_##name(listing.at, listing.length, __VA_ARGS__)                            \
                   : dreichnook_indexed_##name(listing.at, listing.length, index->at, index->length, __VA_ARGS__))
    uint64_t *n = answer->numbers;
    uint8_t *byte = &answer->byte;
    uint8_t *letters = (uint8_t *)answer->out;
    memset(answer, UNTOUCHED, sizeof *answer);
    switch (lookup) {
    case SEQUENCE:
        answer->refusal = ASK(sequence, k, &n[0], byte, &n[1], &n[2]);
        break;
    case FEATURE:
        answer->refusal = ASK(feature, k, j, answer->out, room, &n[0], &n[1], &n[2], &n[3], &n[4], byte, &n[5]);
        break;
    case QUALIFIER:
        answer->refusal = ASK(qualifier, k, j, i, &n[0], &n[1], &n[2], byte, &n[3], &n[4]);
        break;
    case TRANSLATION:
        answer->refusal = ASK(translation, k, j, letters, 4 * room, &n[0], &n[1]);
        break;
    default:
        answer->refusal = ASK(translations, k, letters, 4 * room, &n[0], &n[1]);
        break;
    }
#undef ASK
}

static void ask(struct answer *answer, const struct lent *index, enum lookup lookup, uint64_t k, uint64_t j, uint64_t i)
{
    ask_in(ROOM, answer, index, lookup, k, j, i);
}

static void nothing_written(const struct answer *answer)
{
    for (size_t at = 0; at < ROOM; at++)
        REQUIRE(answer->out[at] == UNTOUCHED * UINT32_C(0x01010101));
}

/* Whether a feature of so many spans is refused in short room, and nothing of it is shown: no part either. */
static void short_room(const struct lent *index, uint64_t k, uint64_t j, uint64_t count)
{
    struct answer answer;
    const size_t rooms[] = {0, 3 * (size_t)count - 1};
    for (size_t n = 0; n < 2; n++) {
        ask_in(rooms[n], &answer, index, FEATURE, k, j, 0);
        REQUIRE(answer.refusal == DREICHNOOK_NO_ROOM && answer.byte == 0);
        for (size_t at = 0; at < 6; at++)
            REQUIRE(answer.numbers[at] == 0);
        nothing_written(&answer);
    }
    ask_in(3 * (size_t)count, &answer, index, FEATURE, k, j, 0);
    REQUIRE(answer.refusal == 0 && answer.numbers[5] == count);
}

/* Whether every lookup answers with the index as without it, of a sequence's first features and qualifiers. */
static void same_answers(const struct lent *index, uint64_t k)
{
    struct answer alone, indexed;
    for (int lookup = 0; lookup < LOOKUPS; lookup++) {
        const uint64_t features = lookup == SEQUENCE || lookup == TRANSLATIONS ? 1 : 3;
        const uint64_t qualifiers = lookup == QUALIFIER ? 3 : 1;
        for (uint64_t n = 0; n < features * qualifiers; n++) {
            ask(&alone, NULL, lookup, k, n / qualifiers, n % qualifiers);
            ask(&indexed, index, lookup, k, n / qualifiers, n % qualifiers);
            REQUIRE(memcmp(&alone, &indexed, sizeof alone) == 0);
            if (lookup == FEATURE && alone.refusal == 0) {
                short_room(NULL, k, n, alone.numbers[5]);
                short_room(index, k, n, alone.numbers[5]);
            }
        }
    }
}

/* Whether every lookup refuses so, sets the other numbers to 0 and leaves the lent output. */
static void all_refused(const struct lent *index, uint32_t refusal, uint64_t place)
{
    struct answer answer;
    for (int lookup = 0; lookup < LOOKUPS; lookup++) {
        for (uint64_t k = 0; k < 2; k++) {
            ask(&answer, index, lookup, k, 1, 1);
            REQUIRE(answer.refusal == refusal && answer.numbers[0] == place && answer.numbers[1] == 0);
            nothing_written(&answer);
        }
    }
}

/* ---- the index */

/* Made in so much room, which stays as it was beyond the index. */
static uint32_t make(uint8_t *out, size_t room, uint64_t *place, uint64_t *size)
{
    memset(out, UNTOUCHED, room);
    const uint32_t refusal = dreichnook_index(listing.at, listing.length, out, room, place, size);
    REQUIRE(*size <= room && (refusal == 0 || *size == 0) && (refusal != 0 || *place == 0));
    for (size_t at = (size_t)*size; at < room; at++)
        REQUIRE(out[at] == UNTOUCHED);
    return refusal;
}

/* Whether the bytes are refused as an index with 50 at this place. */
static void differs(const uint8_t *at, size_t length, uint64_t differing)
{
    uint64_t place = ~0u;
    REQUIRE(dreichnook_index_check(listing.at, listing.length, at, length, &place) == DREICHNOOK_INDEX_DIFFERS);
    REQUIRE(place == differing);
}

/* A number of the index, counted from 0. */
static uint32_t number(const uint8_t *index, size_t at)
{
    const uint8_t *byte = index + 4 * at;
    return byte[0] | (uint32_t)byte[1] << 8 | (uint32_t)byte[2] << 16 | (uint32_t)byte[3] << 24;
}

/* Whether the numbers are those of the plain lookups, in the order of the header. */
static void right_numbers(const uint8_t *index, size_t size, uint64_t total)
{
    struct answer answer;
    size_t start = DREICHNOOK_INDEX_HEAD + DREICHNOOK_INDEX_ENTRY * (size_t)total;
    REQUIRE(number(index, 0) == total);
    for (uint64_t k = 1; k <= total; k++) {
        const size_t entry = DREICHNOOK_INDEX_HEAD + DREICHNOOK_INDEX_ENTRY * (size_t)(k - 1);
        size_t end = start + DREICHNOOK_INDEX_BODY;
        ask(&answer, NULL, SEQUENCE, k, 0, 0);
        REQUIRE(number(index, start) == answer.byte);
        if (answer.refusal == DREICHNOOK_SKIPPED) {
            REQUIRE(number(index, start + 2) == 3 && memcmp(listing.at + number(index, start + 1), "000<", 4) == 0);
        } else {
            REQUIRE(number(index, start + 1) == answer.numbers[1] && number(index, start + 2) == answer.numbers[2]);
            ask(&answer, NULL, FEATURE, k, 1, 0);
            for (uint64_t j = 1; answer.refusal == 0; end += DREICHNOOK_INDEX_FEATURE, j++) {
                for (size_t at = 0; at < DREICHNOOK_INDEX_FEATURE; at++)
                    REQUIRE(number(index, end + at) == answer.numbers[1 + at]);
                ask(&answer, NULL, FEATURE, k, j + 1, 0);
            }
        }
        REQUIRE(number(index, entry) == 4 * start && number(index, entry + 1) == 4 * (end - start));
        start = end;
    }
    REQUIRE(size == 4 * start);
}

static void try_accepted(uint64_t total)
{
    const size_t room = DREICHNOOK_INDEX_ROOM(listing.length);
    uint64_t place, size;
    uint8_t *made = room_for(room);
    REQUIRE(make(made, room, &place, &size) == 0);
    const size_t length = (size_t)size;
    right_numbers(made, length, total);

    /* The same in room that just suffices, and none in one byte less. */
    uint8_t *index = room_for(length);
    REQUIRE(make(index, length, &place, &size) == 0 && size == length && memcmp(index, made, length) == 0);
    uint8_t *shorter = room_for(length - 1);
    REQUIRE(make(shorter, length - 1, &place, &size) == DREICHNOOK_NO_ROOM && place == 0);
    memcpy(shorter, made, length - 1);

    const struct lent lent = {index, length};
    place = ~0u;
    REQUIRE(dreichnook_index_check(listing.at, listing.length, index, length, &place) == 0 && place == 0);
    for (uint64_t k = 0; k <= total + 1; k++)
        same_answers(&lent, k);

    /* Another number, an end too soon, a byte more. */
    for (size_t at = 0; at < length; at += 1 + length / 32) {
        index[at] ^= 0x80;
        differs(index, length, at);
        index[at] ^= 0x80;
    }
    differs(shorter, length - 1, length - 1);
    differs(index, 0, 0);
    differs(made, length + 1, length);
    index[length / 2] ^= 1;
    all_refused(&lent, DREICHNOOK_INDEX_DIFFERS, length / 2);
    free(made);
    free(index);
    free(shorter);
}

static void try_refused(uint32_t refusal, uint64_t place)
{
    const size_t room = DREICHNOOK_INDEX_ROOM(listing.length);
    uint64_t said, size;
    uint8_t *out = room_for(room);
    REQUIRE(make(out, room, &said, &size) == refusal && said == place);
    REQUIRE(make(out, 0, &said, &size) == refusal && said == place);
    REQUIRE(dreichnook_index_check(listing.at, listing.length, out, room, &said) == refusal && said == place);
    const struct lent lent = {out, room};
    all_refused(&lent, refusal, place);
    free(out);
}

int main(int count, char **words)
{
    for (int n = 1; n < count; n++) {
        static uint8_t front[1 << 20];
        FILE *file = fopen(words[n], "rb");
        REQUIRE(file != NULL);
        listing.length = fread(front, 1, sizeof front, file);
        fclose(file);
        uint8_t *bytes = room_for(listing.length);
        memcpy(bytes, front, listing.length);
        listing.at = bytes;
        uint64_t place, total, other[4];
        const uint32_t refusal =
            dreichnook_check(listing.at, listing.length, &place, &total, &other[0], &other[1], &other[2], &other[3]);
        if (refusal == 0)
            try_accepted(total);
        else
            try_refused(refusal, place);
        free(bytes);
    }
    printf("index_test: %d files, nothing found\n", count - 1);
    return 0;
}
