/*
 * example FILE [INDEX]: the verdict on a listing, then of each sequence the residues, the features with their spans, and
 * the translations.
 *
 * Where the sequences stand is read off the index of the listing, so that one call tells it of all. INDEX is the file of an
 * index that came with the listing; without it, one is made here.
 *
 * At the root of the repository:
 *
 *   cc -std=c99 -Wall -Wextra -pedantic -Ihosts/include hosts/c/example.c target/native/libdreichnook.a -o target/example
 *   target/example tests/specimens/annex-iii.xml
 *
 * Status 0: accepted. 1: refused. 2: trouble with the file, or too little memory.
 */
#include "dreichnook.h"

#include <inttypes.h>
#include <stdio.h>
#include <stdlib.h>

/* A whole file, or the front that is enough for the verdict that it is too long. NULL: it can't be read. */
static uint8_t *read_file(const char *name, size_t *length)
{
    const size_t most = (size_t)DREICHNOOK_LIMIT + 1;
    uint8_t *bytes = malloc(most);
    FILE *file = fopen(name, "rb");
    int failed = bytes == NULL || file == NULL;
    if (!failed) {
        *length = fread(bytes, 1, most, file);
        failed = ferror(file);
    }
    if (file != NULL)
        fclose(file);
    if (failed) {
        free(bytes);
        return NULL;
    }
    /* No more memory than the file takes; not NULL for an empty one, which the calls wouldn't take. */
    uint8_t *fitted = realloc(bytes, *length > 0 ? *length : 1);
    return fitted != NULL ? fitted : bytes;
}

/* A number of an index, counted from 0. */
static uint32_t number(const uint8_t *index, size_t at)
{
    const uint8_t *byte = index + 4 * at;
    return byte[0] | (uint32_t)byte[1] << 8 | (uint32_t)byte[2] << 16 | (uint32_t)byte[3] << 24;
}

/* Prints a feature. A location of n bytes has at most n / 2 + 1 spans, and the index has n, so the room suffices. */
static uint32_t print_feature(const uint8_t *listing, size_t length, uint64_t sequence, uint64_t feature, size_t location)
{
    const size_t room = 3 * (location / 2 + 1);
    uint64_t place, key_start, key_size, location_start, location_size, count;
    uint8_t operator_;
    uint32_t *out = malloc(room * sizeof *out);
    if (out == NULL)
        return DREICHNOOK_NO_ROOM;
    const uint32_t refusal = dreichnook_feature(listing, length, sequence, feature, out, room, &place, &key_start, &key_size,
                                                &location_start, &location_size, &operator_, &count);
    if (refusal == DREICHNOOK_ANSWERED) {
        fwrite(listing + key_start, 1, (size_t)key_size, stdout);
        for (const uint32_t *span = out; span < out + 3 * count; span += 3)
            printf("%s %" PRIu32 " to %" PRIu32 "%s", span == out ? "" : ",", span[0], span[1],
                   span[2] & DREICHNOOK_COMPLEMENT ? " complemented" : "");
        putchar('\n');
    }
    free(out);
    return refusal;
}

/* Prints all translations of a sequence. The size of the answer isn't known beforehand, so the room grows. */
static uint32_t print_translations(const uint8_t *listing, size_t length, uint64_t sequence)
{
    uint32_t refusal = DREICHNOOK_NO_ROOM;
    uint64_t place, size;
    for (size_t room = 4096; refusal == DREICHNOOK_NO_ROOM && room <= DREICHNOOK_LIMIT; room *= 16) {
        uint8_t *out = malloc(room);
        if (out == NULL)
            return refusal;
        refusal = dreichnook_translations(listing, length, sequence, out, room, &place, &size);
        fwrite(out, 1, (size_t)size, stdout);
        free(out);
    }
    return refusal;
}

/* The index of an accepted listing, of a file or made. NULL, with the status: it isn't the listing's, or there is none. */
static uint8_t *index_of(const uint8_t *listing, size_t length, const char *name, int *status)
{
    uint64_t place, size;
    size_t room = DREICHNOOK_INDEX_ROOM(length);
    uint8_t *index = name != NULL ? read_file(name, &room) : malloc(room);
    if (index == NULL) {
        perror(name != NULL ? name : "the index");
        *status = 2;
        return NULL;
    }
    const uint32_t refusal = name != NULL ? dreichnook_index_check(listing, length, index, room, &place)
                                          : dreichnook_index(listing, length, index, room, &place, &size);
    if (refusal != DREICHNOOK_ANSWERED) {
        printf("refused: rule %" PRIu32 " at byte %" PRIu64 " of the index\n", refusal, place);
        free(index);
        *status = 1;
        return NULL;
    }
    return index;
}

/* Prints the sequences; the status. The index is made or checked for this listing: its places needn't be asked for again. */
static int print_sequences(const uint8_t *listing, size_t length, const uint8_t *index)
{
    static const char *const kinds[] = {"skipped", "DNA", "RNA", "AA"};
    const uint64_t total = number(index, 0);
    for (uint64_t k = 1; k <= total; k++) {
        const size_t entry = DREICHNOOK_INDEX_HEAD + DREICHNOOK_INDEX_ENTRY * (size_t)(k - 1);
        const size_t body = number(index, entry) / 4, end = body + number(index, entry + 1) / 4;
        const uint32_t kind = number(index, body), start = number(index, body + 1), size = number(index, body + 2);
        printf("sequence %" PRIu64 ": %s", k, kinds[kind]);
        if (kind == DREICHNOOK_KIND_NONE) {
            putchar('\n');
            continue;
        }
        printf(", %" PRIu32 " residues\n", size);
        fwrite(listing + start, 1, size, stdout);
        putchar('\n');
        uint32_t refusal = DREICHNOOK_ANSWERED;
        size_t at = body + DREICHNOOK_INDEX_BODY;
        for (uint64_t j = 1; at < end && refusal == DREICHNOOK_ANSWERED; j++, at += DREICHNOOK_INDEX_FEATURE)
            refusal = print_feature(listing, length, k, j, number(index, at + 3));
        if (refusal == DREICHNOOK_ANSWERED)
            refusal = print_translations(listing, length, k);
        if (refusal != DREICHNOOK_ANSWERED) {
            fprintf(stderr, "sequence %" PRIu64 " takes too much room\n", k);
            return 2;
        }
    }
    return 0;
}

int main(int count, char **words)
{
    uint64_t place, total, skipped, features, judged, unjudged;
    size_t length;
    if (count != 2 && count != 3) {
        fprintf(stderr, "usage: %s FILE [INDEX]\n", words[0]);
        return 2;
    }
    uint8_t *listing = read_file(words[1], &length);
    if (listing == NULL) {
        perror(words[1]);
        return 2;
    }

    int status = 0;
    const uint32_t refusal = dreichnook_check(listing, length, &place, &total, &skipped, &features, &judged, &unjudged);
    if (refusal != DREICHNOOK_ANSWERED) {
        printf("refused: rule %" PRIu32 " at byte %" PRIu64 "\n", refusal, place);
        status = 1;
    } else {
        printf("accepted: %" PRIu64 " sequences, %" PRIu64 " features\n", total, features);
        uint8_t *index = index_of(listing, length, count == 3 ? words[2] : NULL, &status);
        if (index != NULL)
            status = print_sequences(listing, length, index);
        free(index);
    }
    free(listing);
    return status;
}
