/*
 * The fuzzer's side of the library: asks every function about each input and stops at an answer that the header rules out.
 *
 * An input is a listing. What stands behind its first byte 0, if it has one, says how to change the listing's index: see
 * ask_with_indexes. So the fuzzer has the right index of every accepted listing, and can make any other.
 *
 * The archive is finished machine code, so no sanitizer sees into it. Three things stand in for that:
 * - The listing, the index and the lent output lie against pages that nobody may touch, and the first two are write-protected.
 * - All memory that a call may set is filled with a pattern beforehand and looked at afterwards.
 * - What a call answers (rule and place, counts, marks) is given to libFuzzer as coverage, so that it gets deeper.
 */
#include "dreichnook.h"

#include <stdio.h>
#include <stdlib.h>
#include <string.h>
#include <sys/mman.h>
#include <unistd.h>

/* The longest input, the elements lent, the bytes for them with some before, the items asked for, and the pattern. */
enum { MOST = 1 << 17, ROOM = 2048, LENT = 3 << 12, SOME = 4, UNTOUCHED = 0xa5 };

/* The refusal of an index that isn't the listing's. */
enum { OTHER_INDEX = 50 };

#define REQUIRE(holds)                                                              \
    do {                                                                            \
        if (!(holds)) {                                                             \
            fprintf(stderr, "harness.c:%d: not so: %s\n", __LINE__, #holds);        \
            abort();                                                                \
        }                                                                           \
    } while (0)

/* libFuzzer reads and clears these after each input. */
__attribute__((section("__libfuzzer_extra_counters"))) static uint8_t seen[1 << 16];

static void saw(uint64_t what, uint64_t value)
{
    uint64_t hash = (what * 0x9e3779b97f4a7c15u + value) * 0xff51afd7ed558ccdu;
    seen[hash >> 48] = 1;
}

/* The listing as it is lent, and the index beside it: NULL for the lookups without one. */
static const uint8_t *listing, *beside;
static size_t length, beside_length;
/* What the check said, or the index's checker; every lookup must refuse alike. */
static uint32_t verdict;
static uint64_t verdict_place;
/* What the check counted. */
static uint64_t total, skipped, features;

/* A lookup without an index, or with the one beside the listing: from `sequence` on the arguments are the same. */
#define LOOK_UP(name, ...)                                                                                     \
    (beside == NULL ? dreichnook_##name(listing, length, __VA_ARGS__)                                          \
                    : dreichnook_indexed_##name(listing, length, beside, beside_length, __VA_ARGS__))

/* All that the lookups said, as one number: with the right index they say the same as without one. */
static uint64_t told;

static void tell(uint64_t number)
{
    told = (told ^ number) * 0x9e3779b97f4a7c15u;
    told ^= told >> 29;
}

static void tell_part(uint64_t start, uint64_t size)
{
    tell(start);
    tell(size);
}

/* Whole pages between two that nobody may touch. */
static uint8_t *guarded(size_t size)
{
    const size_t page = (size_t)sysconf(_SC_PAGESIZE);
    REQUIRE(size % page == 0);
    uint8_t *memory = mmap(NULL, size + 2 * page, PROT_NONE, MAP_PRIVATE | MAP_ANONYMOUS, -1, 0);
    REQUIRE(memory != MAP_FAILED);
    REQUIRE(mprotect(memory + page, size, PROT_READ | PROT_WRITE) == 0);
    return memory + page;
}

/* Bytes as they are lent to be read: against the page behind them, or against the one before. */
static const uint8_t *lend_to_read(uint8_t *memory, const uint8_t *bytes, size_t size)
{
    uint8_t *front = size % 2 == 0 ? memory + MOST - size : memory;
    REQUIRE(size <= MOST);
    REQUIRE(mprotect(memory, MOST, PROT_READ | PROT_WRITE) == 0);
    if (size > 0)
        memcpy(front, bytes, size);
    REQUIRE(mprotect(memory, MOST, PROT_READ) == 0);
    return front;
}

/* Lent output: its end is the end of the guarded memory. */
static uint8_t *lent;
static uint8_t untouched[LENT];

static uint8_t *lend(size_t bytes)
{
    memcpy(lent, untouched, LENT);
    return lent + LENT - bytes;
}

/* All of the output memory is untouched but for `size` bytes at the front of what was lent. */
static void only_written(const uint8_t *out, size_t size)
{
    const size_t before = (size_t)(out - lent), after = LENT - before - size;
    REQUIRE(memcmp(lent, untouched, before) == 0);
    REQUIRE(memcmp(out + size, untouched, after) == 0);
    for (size_t n = 0; n < size; n++)
        tell(out[n]);
}

/* A refusal is the check's own or the checker's, or one of those that the call may give after them. */
static void refusal_fits(uint32_t refusal, uint64_t place, uint32_t least, uint32_t greatest)
{
    saw(40, refusal);
    tell(refusal);
    if (verdict != 0)
        REQUIRE(refusal == verdict && place == verdict_place);
    else
        REQUIRE((refusal == 0 || (refusal >= least && refusal <= greatest)) && place == 0);
}

static void part_fits(uint32_t refusal, uint64_t start, uint64_t size)
{
    if (refusal != 0)
        REQUIRE(start == 0 && size == 0);
    REQUIRE(start <= length && size <= length - start);
    for (uint64_t at = start; at < start + size; at++)
        REQUIRE(listing[at] >= 32 && listing[at] < 127 && listing[at] != '<' && listing[at] != '>');
}

/* The number that stands there in the index. */
static uint64_t number_at(const uint8_t *index, uint64_t at)
{
    return index[at] | (uint64_t)index[at + 1] << 8 | (uint64_t)index[at + 2] << 16 | (uint64_t)index[at + 3] << 24;
}

/* What a lookup shows is what stands in the sequence's body from this number on, if there is an index. */
static void body_says(uint64_t k, uint64_t from, const uint64_t *shown, size_t count)
{
    if (beside == NULL)
        return;
    const uint64_t body = number_at(beside, 8 * k - 4);
    for (size_t n = 0; n < count; n++)
        REQUIRE(number_at(beside, body + 4 * (from + n)) == shown[n]);
}

static uint32_t ask_qualifier(uint64_t k, uint64_t j, uint64_t i)
{
    uint64_t place = ~0u, name = ~0u, name_size = ~0u, value = ~0u, value_size = ~0u;
    uint8_t present = UNTOUCHED;
    uint32_t refusal = LOOK_UP(qualifier, k, j, i, &place, &name, &name_size, &present, &value, &value_size);
    refusal_fits(refusal, place, DREICHNOOK_NO_SEQUENCE, DREICHNOOK_NO_QUALIFIER);
    part_fits(refusal, name, name_size);
    part_fits(refusal, value, value_size);
    tell(present);
    tell_part(name, name_size);
    if (present)
        tell_part(value, value_size);
    REQUIRE(present == 0 || (present == 1 && refusal == 0));
    REQUIRE(present == 1 || (value == 0 && value_size == 0));
    return refusal;
}

/* Whether a number, not 0, is written in this part. */
static int is_written(uint64_t number, uint64_t start, uint64_t size)
{
    uint64_t value = 0;
    for (uint64_t at = start; at <= start + size; at++) { /* behind a part stands its end tag */
        if (listing[at] >= '0' && listing[at] <= '9')
            value = value * 10 + listing[at] - '0';
        else if (value == number)
            return 1;
        else
            value = 0;
    }
    return 0;
}

/* A feature, with room for so many numbers; gives how many the answer takes. A refusal for room shows no part either. */
static uint64_t ask_feature(uint64_t k, uint64_t j, size_t room, uint32_t *refusal)
{
    uint64_t place = ~0u, key = ~0u, key_size = ~0u, location = ~0u, location_size = ~0u, count = ~0u;
    uint8_t operator_ = UNTOUCHED;
    uint32_t *out = (uint32_t *)(void *)lend(room * sizeof *out);
    *refusal = LOOK_UP(feature, k, j, out, room, &place, &key, &key_size, &location, &location_size, &operator_, &count);
    refusal_fits(*refusal, place, DREICHNOOK_NO_SEQUENCE, DREICHNOOK_NO_ROOM);
    REQUIRE(*refusal != DREICHNOOK_NO_QUALIFIER);
    part_fits(*refusal, key, key_size);
    part_fits(*refusal, location, location_size);
    REQUIRE(*refusal != 0 || (key_size > 0 && location_size > 0));
    tell_part(key, key_size);
    tell_part(location, location_size);
    tell(operator_);
    if (*refusal == 0)
        body_says(k, 4 * j - 1, (uint64_t[]){key, key_size, location, location_size}, 4);
    REQUIRE(operator_ <= DREICHNOOK_ORDER && (*refusal == 0) == (count > 0) && (*refusal == 0 || operator_ == 0));
    REQUIRE((count > 1) == (operator_ != DREICHNOOK_OPERATOR_NONE) && count <= room / 3);
    REQUIRE(*refusal != 0 || count <= location_size / 2 + 1);
    only_written((uint8_t *)out, (size_t)count * 3 * sizeof *out);
    for (uint64_t n = 0; n < count; n++) {
        const uint32_t first = out[3 * n], last = out[3 * n + 1], marks = out[3 * n + 2];
        REQUIRE(marks < 16 && first > 0 && last > 0 && first <= length && last <= length);
        REQUIRE(first <= last || (marks & DREICHNOOK_SITE && last == 1));
        REQUIRE(is_written(first, location, location_size) && is_written(last, location, location_size));
        saw(41, marks + 16 * operator_ + 64 * (n > 0));
    }
    return count * 3;
}

/* One translation, or with feature 0 all of the sequence. */
static uint64_t ask_translation(uint64_t k, uint64_t j, size_t room, uint32_t *refusal)
{
    uint64_t place = ~0u, size = ~0u;
    uint8_t *out = lend(room);
    if (j == 0) {
        *refusal = LOOK_UP(translations, k, out, room, &place, &size);
        refusal_fits(*refusal, place, DREICHNOOK_NO_SEQUENCE, DREICHNOOK_NO_ROOM);
        REQUIRE(*refusal != DREICHNOOK_NO_FEATURE && *refusal != DREICHNOOK_NO_QUALIFIER);
        REQUIRE(size <= room && (size == 0 || out[size - 1] == '\n'));
    } else {
        *refusal = LOOK_UP(translation, k, j, out, room, &place, &size);
        refusal_fits(*refusal, place, DREICHNOOK_NO_SEQUENCE, DREICHNOOK_STOP_INSIDE);
        REQUIRE(*refusal != DREICHNOOK_NO_QUALIFIER && size <= room);
    }
    REQUIRE(*refusal == 0 || size == 0);
    only_written(out, (size_t)size);
    for (uint64_t n = 0; n < size; n++) {
        REQUIRE((out[n] >= 'A' && out[n] <= 'Z') || (j == 0 && (out[n] == '-' || out[n] == '\n')));
        saw(42, out[n]);
    }
    return size;
}

/* The same answer into room that just suffices, and none into one element less. Gives the refusal in large room. */
static uint32_t ask_in_tight_room(uint64_t (*ask)(uint64_t, uint64_t, size_t, uint32_t *), uint64_t k, uint64_t j)
{
    static uint8_t before[ROOM * sizeof(uint32_t)];
    uint32_t refusal;
    const size_t size = (size_t)ask(k, j, ROOM, &refusal);
    if (refusal != 0)
        return refusal;
    const size_t width = ask == ask_feature ? sizeof(uint32_t) : 1;
    memcpy(before, lent + LENT - ROOM * width, size * width);
    REQUIRE(ask(k, j, size, &refusal) == size && refusal == 0);
    REQUIRE(memcmp(before, lent + LENT - size * width, size * width) == 0);
    if (size > 0)
        REQUIRE(ask(k, j, size - 1, &refusal) == 0 && refusal == DREICHNOOK_NO_ROOM);
    return 0;
}

/* A feature with its translation and its qualifiers; gives whether there is one. */
static int ask_of_feature(uint64_t k, uint64_t j)
{
    const uint32_t refusal = ask_in_tight_room(ask_feature, k, j);
    if (j != 0)
        ask_in_tight_room(ask_translation, k, j);
    for (uint64_t i = 1; i <= SOME && ask_qualifier(k, j, i) == 0; i++)
        ;
    ask_qualifier(k, j, 0);
    return refusal == 0 || refusal == DREICHNOOK_NO_ROOM;
}

static void ask_sequence(uint64_t k)
{
    uint64_t place = ~0u, start = ~0u, size = ~0u;
    uint8_t kind = UNTOUCHED;
    uint32_t refusal = LOOK_UP(sequence, k, &place, &kind, &start, &size);
    refusal_fits(refusal, place, DREICHNOOK_NO_SEQUENCE, DREICHNOOK_SKIPPED);
    part_fits(refusal, start, size);
    REQUIRE(kind <= DREICHNOOK_AA && (refusal == 0) == (kind != DREICHNOOK_KIND_NONE));
    saw(43, kind);
    tell(kind);
    tell_part(start, size);
    if (refusal == 0)
        body_says(k, 0, (uint64_t[]){kind, start, size}, 3);
    ask_in_tight_room(ask_translation, k, 0);
    for (uint64_t j = 1; j <= SOME && ask_of_feature(k, j); j++)
        ;
    ask_of_feature(k, 0);
    ask_of_feature(k, UINT64_MAX);
}

static void ask_check(void)
{
    uint64_t place = ~0u, judged = ~0u, unjudged = ~0u;
    total = skipped = features = ~0u;
    verdict = dreichnook_check(listing, length, &place, &total, &skipped, &features, &judged, &unjudged);
    verdict_place = place;
    /* Not each place by itself: refused inputs would be nearly all that libFuzzer keeps. */
    saw(verdict, place / 512);
    if (verdict == 0) {
        REQUIRE(place == 0 && total > 0 && skipped <= total && total - skipped <= features && judged + unjudged <= features);
        saw(44, total);
        saw(45, skipped);
        saw(46, features);
        saw(47, judged * 256 + unjudged);
    } else {
        REQUIRE(verdict == DREICHNOOK_NOT_THE_LAYOUT || (verdict >= 10 && verdict <= 29) ||
                (verdict >= DREICHNOOK_UNKNOWN_KEY && verdict <= DREICHNOOK_REQUIRED_MISSING));
        REQUIRE(place <= length && (verdict == DREICHNOOK_NOT_THE_LAYOUT || place < length));
        REQUIRE(total == 0 && skipped == 0 && features == 0 && judged == 0 && unjudged == 0);
    }
}

/* Asks for some items and for some that aren't there; gives all that was said, as one number. */
static uint64_t ask_for_items(void)
{
    told = 0;
    for (uint64_t k = 0; k <= SOME; k++)
        ask_sequence(k);
    ask_sequence(total);
    ask_sequence(total + 1);
    return told;
}

/* The maker, with room for so many bytes; the two numbers are for ask_in_tight_room only. */
static uint64_t ask_index(uint64_t k, uint64_t j, size_t room, uint32_t *refusal)
{
    uint64_t place = ~0u, size = ~0u;
    uint8_t *out = lend(room);
    *refusal = dreichnook_index(listing, length, out, room, &place, &size);
    refusal_fits(*refusal, place, DREICHNOOK_NO_ROOM, DREICHNOOK_NO_ROOM);
    REQUIRE(size <= room && (*refusal == 0) == (size > 0));
    (void)k, (void)j;
    only_written(out, (size_t)size);
    return size;
}

/* The numbers of an index that the maker has written: bodies in order without gaps, and parts of the listing in them. */
static void index_fits(const uint8_t *index, uint64_t size)
{
    uint64_t start = 4 + 8 * total, left_out = 0, counted = 0;
    REQUIRE(size >= start && number_at(index, 0) == total);
    for (uint64_t k = 1; k <= total; k++) {
        const uint64_t body = number_at(index, 8 * k - 4), body_size = number_at(index, 8 * k);
        REQUIRE(body == start && body_size >= 12 && (body_size - 12) % 16 == 0 && body_size <= size - start);
        const uint64_t kind = number_at(index, body);
        REQUIRE(kind <= DREICHNOOK_AA);
        for (uint64_t at = body + 4; at < body + body_size; at += 8) {
            part_fits(0, number_at(index, at), number_at(index, at + 4));
            REQUIRE(number_at(index, at + 4) > 0);
        }
        if (kind == DREICHNOOK_KIND_NONE) {
            REQUIRE(body_size == 12 && number_at(index, body + 8) == 3);
            REQUIRE(memcmp(listing + number_at(index, body + 4), "000", 3) == 0);
            left_out++;
        }
        counted += (body_size - 12) / 16;
        start += body_size;
    }
    REQUIRE(start == size && left_out == skipped && counted == features);
}

/* The index that the maker writes, with room for more bytes behind it, and its size: 0 where it refuses. */
static uint8_t made[MOST];
static size_t made_size;

static void ask_maker(void)
{
    uint32_t refusal;
    made_size = (size_t)ask_index(0, 0, LENT, &refusal);
    memcpy(made, lent, made_size);
    if (made_size > 0)
        index_fits(made, made_size);
    ask_index(0, 0, 0, &refusal);
    ask_in_tight_room(ask_index, 0, 0);
}

/* Lends these bytes as the index. The checker must say where they part from the made one. */
static uint32_t ask_index_check(const uint8_t *bytes, size_t size, uint64_t *place)
{
    static uint8_t *memory;
    if (memory == NULL)
        memory = guarded(MOST);
    beside = lend_to_read(memory, bytes, size);
    beside_length = size;
    uint64_t same = 0;
    while (same < size && same < made_size && bytes[same] == made[same])
        same++;
    *place = ~0u;
    const uint32_t refusal = dreichnook_index_check(listing, length, beside, beside_length, place);
    if (verdict != 0)
        REQUIRE(refusal == verdict && *place == verdict_place);
    else if (same == made_size && same == size)
        REQUIRE(refusal == 0 && *place == 0);
    else
        REQUIRE(refusal == OTHER_INDEX && *place == same);
    saw(48, verdict == 0 ? *place : 0);
    return refusal;
}

/* The same, and then lookups with it: they go by the checker, and with the right index they say what they said without one. */
static void ask_with_index(const uint8_t *bytes, size_t size, uint64_t plain)
{
    const uint32_t checked = verdict;
    const uint64_t checked_place = verdict_place;
    uint64_t place;
    verdict = ask_index_check(bytes, size, &place);
    verdict_place = place;
    if (verdict == 0) {
        REQUIRE(ask_for_items() == plain);
    } else {
        ask_sequence(0);
        ask_sequence(1);
    }
    beside = NULL;
    verdict = checked;
    verdict_place = checked_place;
}

/*
 * The right index, and some that aren't: cut, with a byte more, with a byte changed. Where and how the listing's bytes decide,
 * so that listings that differ little try others. Then the right one changed as the input says: behind byte 0 stands a place in
 * two bytes, then what is to stand there. If nothing is, the index ends there.
 */
static void ask_with_indexes(const uint8_t *change, size_t change_size, uint64_t plain)
{
    static uint8_t changed[MOST + LENT];
    uint64_t place;
    ask_with_index(made, made_size, plain);
    if (verdict == 0) {
        told = 0;
        for (size_t n = 0; n < length; n++)
            tell(listing[n]);
        const uint64_t by = told;
        ask_with_index(made, by % made_size, plain);
        made[made_size] = (uint8_t)by;
        ask_with_index(made, made_size + 1, plain);
        for (uint64_t n = 0; n < 64; n++) {
            const size_t at = ((by >> 16) + n) % made_size;
            memcpy(changed, made, made_size);
            changed[at] ^= 1 << ((by >> 8) + n / 8) % 8;
            ask_index_check(changed, made_size, &place);
        }
        ask_with_index(changed, made_size, plain);
    }
    if (change_size >= 3) {
        const size_t at = (change[1] + 256u * change[2]) % (made_size + 1), size = change_size - 3;
        memcpy(changed, made, made_size);
        memcpy(changed + at, change + 3, size);
        ask_with_index(changed, size == 0 || at + size > made_size ? at + size : made_size, plain);
    }
}

/* What libFuzzer calls for each input. */
int LLVMFuzzerTestOneInput(const uint8_t *data, size_t size);

int LLVMFuzzerTestOneInput(const uint8_t *data, size_t size)
{
    static uint8_t *memory;
    if (memory == NULL) {
        memory = guarded(MOST);
        lent = guarded(LENT);
        memset(untouched, UNTOUCHED, LENT);
    }
    if (size > MOST)
        return 0;
    const uint8_t *zero = size > 0 ? memchr(data, 0, size) : NULL;
    length = zero == NULL ? size : (size_t)(zero - data);
    listing = lend_to_read(memory, data, length);

    ask_check();
    const uint64_t plain = ask_for_items();
    ask_maker();
    if (verdict != 0 || made_size > 0) /* else an index too long for the output here */
        ask_with_indexes(data + length, size - length, plain);
    return 0;
}

#ifdef ALONE
/* Without libFuzzer: tries the files named, for scripts/memory. */
int main(int count, char **words)
{
    static uint8_t data[MOST];
    for (int n = 1; n < count; n++) {
        FILE *file = fopen(words[n], "rb");
        REQUIRE(file != NULL);
        LLVMFuzzerTestOneInput(data, fread(data, 1, MOST, file));
        fclose(file);
    }
    printf("harness: %d files, nothing found\n", count - 1);
    return 0;
}
#else
static uint64_t dice;

static size_t throw(size_t sides)
{
    dice = dice * 6364136223846793005u + 1442695040888963407u;
    return (size_t)(dice >> 33) % sides;
}

size_t LLVMFuzzerMutate(uint8_t *data, size_t size, size_t most);
size_t LLVMFuzzerCustomMutator(uint8_t *data, size_t size, size_t most, unsigned seed);

/*
 * How libFuzzer makes a new input of an old one: half of the time as it likes, which hardly ever leaves a listing accepted. Else
 * in some texts one byte becomes another one of the same text, and now and then a change of the index is put behind a byte 0.
 */
size_t LLVMFuzzerCustomMutator(uint8_t *data, size_t size, size_t most, unsigned seed)
{
    if (seed % 2 == 0 || size == 0)
        return LLVMFuzzerMutate(data, size, most);
    dice = seed;
    const uint8_t *zero = memchr(data, 0, size);
    const size_t end = zero == NULL ? size : (size_t)(zero - data);
    for (size_t changes = 1 + throw(3); changes > 0 && end > 0; changes--) {
        size_t start = throw(end), stop;
        do {
            while (start < end && data[start] != '>')
                start++;
            start++;
            for (stop = start; stop < end && data[stop] != '<'; stop++)
                ;
        } while (start < end && stop == start);
        if (start < end) {
            const uint8_t byte = data[start + throw(stop - start)];
            data[start + throw(stop - start)] = byte;
        }
    }
    const size_t more = 3 + throw(4);
    if (throw(4) > 0 || most - end < more)
        return size;
    data[end] = 0;
    for (size_t n = 1; n < more; n++)
        data[end + n] = (uint8_t)(n == 2 ? throw(3) : throw(256));
    return end + more;
}
#endif
