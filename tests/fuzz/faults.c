/*
 * Faults that the harness must find, over the library's right answers; FAULT says which. fuzz/test tries each.
 * The linker's --wrap puts these functions before the library's own.
 */
#include "dreichnook.h"

/* Accesses that the compiler must leave in. */
#define TOUCH(byte) ((void)*(const volatile uint8_t *)(byte))
#define WRITE(byte) (*(volatile uint8_t *)(uintptr_t)(byte) ^= 1)

uint32_t __real_dreichnook_check(const uint8_t *, size_t, uint64_t *, uint64_t *, uint64_t *, uint64_t *, uint64_t *, uint64_t *);
uint32_t __wrap_dreichnook_check(const uint8_t *listing, size_t length, uint64_t *place, uint64_t *total, uint64_t *skipped,
                                 uint64_t *features, uint64_t *judged, uint64_t *unjudged)
{
    uint32_t refusal = __real_dreichnook_check(listing, length, place, total, skipped, features, judged, unjudged);
    if (FAULT == 1) /* reads behind the listing */
        TOUCH(listing + length);
    if (FAULT == 2) /* reads before the listing */
        TOUCH(listing - 1);
    if (FAULT == 3) /* writes into the listing */
        WRITE(listing);
    if (FAULT == 4 && refusal != 0) /* leaves a number as it was */
        *unjudged = ~(uint64_t)0;
    if (FAULT == 5 && refusal != 0) /* points behind the listing */
        *place = length + 1;
    if (FAULT == 6 && refusal == 0) /* counts what isn't there */
        *judged = *features + 1;
    return refusal;
}

uint32_t __real_dreichnook_sequence(const uint8_t *, size_t, uint64_t, uint64_t *, uint8_t *, uint64_t *, uint64_t *);
uint32_t __wrap_dreichnook_sequence(const uint8_t *listing, size_t length, uint64_t sequence, uint64_t *place, uint8_t *kind,
                                    uint64_t *start, uint64_t *size)
{
    uint32_t refusal = __real_dreichnook_sequence(listing, length, sequence, place, kind, start, size);
    if (FAULT == 7 && refusal == 0) /* a part that reaches behind the listing */
        *size = length - *start + 1;
    if (FAULT == 8 && refusal == DREICHNOOK_NO_SEQUENCE) /* a kind beside a refusal */
        *kind = DREICHNOOK_DNA;
    if (FAULT == 9 && refusal == DREICHNOOK_SKIPPED) /* a part beside a refusal */
        *start = 1;
    return refusal;
}

uint32_t __real_dreichnook_feature(const uint8_t *, size_t, uint64_t, uint64_t, uint32_t *, size_t, uint64_t *, uint64_t *,
                                   uint64_t *, uint64_t *, uint64_t *, uint8_t *, uint64_t *);
uint32_t __wrap_dreichnook_feature(const uint8_t *listing, size_t length, uint64_t sequence, uint64_t feature, uint32_t *out,
                                   size_t room, uint64_t *place, uint64_t *key_start, uint64_t *key_size,
                                   uint64_t *location_start, uint64_t *location_size, uint8_t *operator_, uint64_t *count)
{
    uint64_t parts[4];
    uint32_t refusal = __real_dreichnook_feature(listing, length, sequence, feature, out, room, place, key_start, key_size,
                                                 location_start, location_size, operator_, count);
    if (FAULT == 12 && refusal != 0 && room > 0) /* writes beside a refusal */
        WRITE(out);
    if (FAULT == 13 && refusal == 0 && room > 3 * *count) /* writes behind the answer */
        WRITE(out + 3 * *count);
    if (FAULT == 14 && refusal == 0) /* writes behind the room */
        WRITE(out + room);
    if (FAULT == 15 && refusal == 0) /* a span outside the sequence */
        out[0] = 0;
    if (FAULT == 21 && refusal == 0) /* a location with its end tag */
        *location_size += 2;
    if (FAULT == 22 && refusal == DREICHNOOK_NO_FEATURE) /* a key beside a refusal */
        *key_size = 1;
    if (FAULT == 46 && refusal == DREICHNOOK_NO_ROOM) /* a location beside a refusal for room */
        *location_size = 1;
    if (FAULT == 47 && refusal == 0 && feature > 1) /* the spans of another feature */
        refusal = __real_dreichnook_feature(listing, length, sequence, feature - 1, out, room, place, &parts[0], &parts[1],
                                            &parts[2], &parts[3], operator_, count);
    return refusal;
}

uint32_t __real_dreichnook_qualifier(const uint8_t *, size_t, uint64_t, uint64_t, uint64_t, uint64_t *, uint64_t *, uint64_t *,
                                     uint8_t *, uint64_t *, uint64_t *);
uint32_t __wrap_dreichnook_qualifier(const uint8_t *listing, size_t length, uint64_t sequence, uint64_t feature,
                                     uint64_t qualifier, uint64_t *place, uint64_t *name_start, uint64_t *name_size,
                                     uint8_t *present, uint64_t *value_start, uint64_t *value_size)
{
    uint32_t refusal = __real_dreichnook_qualifier(listing, length, sequence, feature, qualifier, place, name_start, name_size,
                                                   present, value_start, value_size);
    if (FAULT == 10 && refusal == 0) /* a value that isn't present */
        *present = 0;
    if (FAULT == 11 && refusal == 0) /* a part with a tag in it */
        --*name_start;
    return refusal;
}

uint32_t __real_dreichnook_translation(const uint8_t *, size_t, uint64_t, uint64_t, uint8_t *, size_t, uint64_t *, uint64_t *);
uint32_t __wrap_dreichnook_translation(const uint8_t *listing, size_t length, uint64_t sequence, uint64_t feature, uint8_t *out,
                                       size_t room, uint64_t *place, uint64_t *size)
{
    uint32_t refusal = __real_dreichnook_translation(listing, length, sequence, feature, out, room, place, size);
    if (FAULT == 16 && refusal == 0) /* writes before the output */
        WRITE(out - 1);
    if (FAULT == 17 && refusal == 0 && *size == room) /* another answer in tight room */
        WRITE(out);
    if (FAULT == 18 && refusal == DREICHNOOK_NO_ROOM) /* says how much room it takes */
        *size = room + 1;
    return refusal;
}

uint32_t __real_dreichnook_translations(const uint8_t *, size_t, uint64_t, uint8_t *, size_t, uint64_t *, uint64_t *);
uint32_t __wrap_dreichnook_translations(const uint8_t *listing, size_t length, uint64_t sequence, uint8_t *out, size_t room,
                                        uint64_t *place, uint64_t *size)
{
    uint32_t refusal = __real_dreichnook_translations(listing, length, sequence, out, room, place, size);
    if (FAULT == 19 && refusal > 0 && refusal < DREICHNOOK_NO_SEQUENCE) /* another place than the check's */
        ++*place;
    if (FAULT == 20 && refusal == 0 && *size > 0) /* the last line isn't closed */
        --*size;
    return refusal;
}

uint32_t __real_dreichnook_index(const uint8_t *, size_t, uint8_t *, size_t, uint64_t *, uint64_t *);
uint32_t __wrap_dreichnook_index(const uint8_t *listing, size_t length, uint8_t *out, size_t room, uint64_t *place, uint64_t *size)
{
    uint32_t refusal = __real_dreichnook_index(listing, length, out, room, place, size);
    if (FAULT == 23 && refusal == DREICHNOOK_NO_ROOM && room > 0) /* writes beside a refusal */
        WRITE(out);
    if (FAULT == 24 && refusal == 0) /* writes behind the room */
        WRITE(out + room);
    if (FAULT == 25 && refusal == 0) /* a body's size is one more */
        ++out[8];
    if (FAULT == 26 && refusal == 0) /* the last length is one more */
        ++out[*size - 4];
    if (FAULT == 27 && room == 0) /* asks for room before it checks the listing */
        *place = 0, refusal = DREICHNOOK_NO_ROOM;
    return refusal;
}

uint32_t __real_dreichnook_index_check(const uint8_t *, size_t, const uint8_t *, size_t, uint64_t *);
uint32_t __wrap_dreichnook_index_check(const uint8_t *listing, size_t length, const uint8_t *index, size_t index_length,
                                       uint64_t *place)
{
    uint32_t refusal = __real_dreichnook_index_check(listing, length, index, index_length, place);
    if (FAULT == 28) /* reads behind the index */
        TOUCH(index + index_length);
    if (FAULT == 29 && index_length > 0) /* writes into the index */
        WRITE(index);
    if (FAULT == 30 && refusal == 50 && *place == index_length - 1) /* takes an index with a byte more */
        *place = 0, refusal = 0;
    if (FAULT == 31 && refusal == 50 && *place == index_length) /* takes a beginning */
        *place = 0, refusal = 0;
    if (FAULT == 32 && refusal == 50) /* the number's place for the byte's */
        *place &= ~(uint64_t)3;
    if (FAULT == 33 && refusal == 0) /* leaves a number as it was */
        *place = ~0u;
    return refusal;
}

uint32_t __real_dreichnook_indexed_sequence(const uint8_t *, size_t, const uint8_t *, size_t, uint64_t, uint64_t *, uint8_t *,
                                            uint64_t *, uint64_t *);
uint32_t __wrap_dreichnook_indexed_sequence(const uint8_t *listing, size_t length, const uint8_t *index, size_t index_length,
                                            uint64_t sequence, uint64_t *place, uint8_t *kind, uint64_t *start, uint64_t *size)
{
    uint32_t refusal = __real_dreichnook_indexed_sequence(listing, length, index, index_length, sequence, place, kind, start, size);
    if (FAULT == 34 && refusal == 0) /* a part that is one letter short */
        --*size;
    if (FAULT == 35 && refusal == 50 && sequence == 0) /* looks for the sequence before it checks the index */
        *place = 0, refusal = DREICHNOOK_NO_SEQUENCE;
    return refusal;
}

uint32_t __real_dreichnook_indexed_feature(const uint8_t *, size_t, const uint8_t *, size_t, uint64_t, uint64_t, uint32_t *, size_t,
                                           uint64_t *, uint64_t *, uint64_t *, uint64_t *, uint64_t *, uint8_t *, uint64_t *);
uint32_t __wrap_dreichnook_indexed_feature(const uint8_t *listing, size_t length, const uint8_t *index, size_t index_length,
                                           uint64_t sequence, uint64_t feature, uint32_t *out, size_t room, uint64_t *place,
                                           uint64_t *key_start, uint64_t *key_size, uint64_t *location_start,
                                           uint64_t *location_size, uint8_t *operator_, uint64_t *count)
{
    uint32_t refusal = __real_dreichnook_indexed_feature(listing, length, index, index_length, sequence, feature, out, room, place,
                                                         key_start, key_size, location_start, location_size, operator_, count);
    if (FAULT == 36 && refusal == 0) /* the location for the key */
        *key_start = *location_start, *key_size = *location_size;
    if (FAULT == 37 && refusal == 50) /* answers without looking at the index */
        refusal = __real_dreichnook_feature(listing, length, sequence, feature, out, room, place, key_start, key_size,
                                            location_start, location_size, operator_, count);
    if (FAULT == 40 && refusal == 50 && room > 0) /* writes beside a refusal */
        WRITE(out);
    if (FAULT == 41 && refusal == 0) /* another mark than without an index */
        out[2] ^= DREICHNOOK_COMPLEMENT;
    return refusal;
}

uint32_t __real_dreichnook_indexed_qualifier(const uint8_t *, size_t, const uint8_t *, size_t, uint64_t, uint64_t, uint64_t,
                                             uint64_t *, uint64_t *, uint64_t *, uint8_t *, uint64_t *, uint64_t *);
uint32_t __wrap_dreichnook_indexed_qualifier(const uint8_t *listing, size_t length, const uint8_t *index, size_t index_length,
                                             uint64_t sequence, uint64_t feature, uint64_t qualifier, uint64_t *place,
                                             uint64_t *name_start, uint64_t *name_size, uint8_t *present, uint64_t *value_start,
                                             uint64_t *value_size)
{
    uint32_t refusal = __real_dreichnook_indexed_qualifier(listing, length, index, index_length, sequence, feature, qualifier, place,
                                                           name_start, name_size, present, value_start, value_size);
    if (FAULT == 38 && refusal == 0) /* the name for the value */
        *present = 1, *value_start = *name_start, *value_size = *name_size;
    if (FAULT == 39) /* reads before the index */
        TOUCH(index - 1);
    return refusal;
}

uint32_t __real_dreichnook_indexed_translation(const uint8_t *, size_t, const uint8_t *, size_t, uint64_t, uint64_t, uint8_t *,
                                               size_t, uint64_t *, uint64_t *);
uint32_t __wrap_dreichnook_indexed_translation(const uint8_t *listing, size_t length, const uint8_t *index, size_t index_length,
                                               uint64_t sequence, uint64_t feature, uint8_t *out, size_t room, uint64_t *place,
                                               uint64_t *size)
{
    uint32_t refusal = __real_dreichnook_indexed_translation(listing, length, index, index_length, sequence, feature, out, room,
                                                             place, size);
    if (FAULT == 42 && refusal == 50) /* another place than the checker's */
        ++*place;
    if (FAULT == 43 && refusal == 0 && *size > 0) /* another letter than without an index */
        out[0] = out[0] == 'M' ? 'L' : 'M';
    return refusal;
}

uint32_t __real_dreichnook_indexed_translations(const uint8_t *, size_t, const uint8_t *, size_t, uint64_t, uint8_t *, size_t,
                                                uint64_t *, uint64_t *);
uint32_t __wrap_dreichnook_indexed_translations(const uint8_t *listing, size_t length, const uint8_t *index, size_t index_length,
                                                uint64_t sequence, uint8_t *out, size_t room, uint64_t *place, uint64_t *size)
{
    uint32_t refusal = __real_dreichnook_indexed_translations(listing, length, index, index_length, sequence, out, room, place, size);
    if (FAULT == 44) /* writes into the listing */
        WRITE(listing);
    if (FAULT == 45 && refusal == 50) /* a size beside a refusal */
        *size = 1;
    return refusal;
}
