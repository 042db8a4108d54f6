/*
 * Dreichnook: a proved reader of WIPO ST.26 sequence listings, edition 1.2.
 *
 * Thirteen functions of libdreichnook.a. Each reads one listing from lent bytes, checks it whole, and answers one
 * question. Six ask of the listing alone; two make an index of it and check one; five look up with an index beside it.
 * No call keeps a pointer, allocates memory, reads a file or has a state: calls from several threads are independent.
 *
 * What is common to all of them
 *
 * The lent listing. `listing` points to `length` bytes, of any content. They are only read. More than DREICHNOOK_LIMIT
 *   bytes are refused by rule 1.
 *
 * The lent index. `index` points to `index_length` bytes, of any content. They are only read. Every call that takes one
 *   checks first the listing, then that the index is the one which dreichnook_index writes for this listing. So a false
 *   index changes no answer: it is refused, and what is shown is part of the listing. An old index whose every
 *   number still fits is accepted, and does no harm.
 *
 * The answer. A call returns 0 when it answers, else the number of its refusal. It sets every number it has a pointer to,
 *   in every case. On refusal `*place` has the place and each of the others is 0; on success `*place` is 0.
 *
 * Parts. A text of the listing is shown as the place of its first byte, counted from 0, and its size in bytes. It is the
 *   raw stretch: `&lt;` stands there as four bytes. start + size never exceeds `length`.
 *
 * Numbers. Sequences, features of a sequence and qualifiers of a feature count from 1, in the order of the listing.
 *
 * Lent output. `out` points to `room` elements: numbers of 32 bits for spans, bytes for translations and the index.
 *   Success writes the answer at the front and leaves the rest as it was. A refusal leaves all of it as it was. Refusal
 *   34 doesn't say how much room is missing.
 *
 * Pointers. None may be NULL, and each must suit its type: `listing`, `index` and `out` too when `length`,
 *   `index_length` or `room` is 0 (point them at any object then). What `out` and the numbers' pointers point to must not
 *   overlap each other, the listing or the index.
 *
 * Cost. Every call checks the whole listing first, and the lent index where it takes one. So n questions cost n checks,
 *   with an index or without. But the places of all sequences and features can be read off an index that
 *   dreichnook_index has written, or dreichnook_index_check has taken, for these same bytes: that is one call for all.
 *
 * Refusals, the first that applies:
 *
 *    1          more than DREICHNOOK_LIMIT bytes; place 0
 *    2          not of the layout; place: the length of the longest beginning that also begins some layout text
 *   10 to 29,   a rule on values is broken; of all that are, the one with the smallest place, at one place the smallest
 *   40 to 42    number; place: that of the value at fault
 *   50          the lent index isn't that of the listing; place: that of the first byte in the index that differs, or the
 *               shorter length where one is a beginning of the other
 *   30          no such sequence
 *   31          the sequence is skipped
 *   32          no such feature
 *   33          no such qualifier
 *   35          not a CDS of DNA or RNA
 *   36          an unjudged CDS
 *   37          a stop inside the CDS
 *   34          the lent output is shorter than the answer
 *
 * The value at fault is of 18 the first residue outside its kind's symbols (of an entity, its `&`), of 40 the unknown
 * feature key, of 41 the name of the qualifier that its key doesn't allow, of 42 the key whose required qualifier is
 * missing. Refusals 30 to 37 have place 0. DREICHNOOK_... below names them.
 *
 * The index: numbers of 32 bits, little-endian, one behind the other. N is the count of sequences.
 *
 *   part                    numbers   what they are
 *   head                    1         N
 *   table of contents       2 * N     of each sequence, in order: where its body starts, and its size
 *   bodies, in order, of    3         kind (0 skipped, 1 DNA, 2 RNA, 3 AA); place and length of the residues
 *   each sequence           4 each    of each feature, in order: place and length of the key, of the location
 *
 * Starts count bytes from the index's first; the first body starts at 4 + 8 * N, and each other where the one before it
 * ends. Sizes and lengths are in bytes too, lengths and places those of parts of the listing. The body of a skipped
 * sequence has no features; its residues are the text `000`.
 */
#ifndef DREICHNOOK_H
#define DREICHNOOK_H

#include <stddef.h>
#include <stdint.h>

#ifdef __cplusplus
extern "C" {
#endif

/* The longest listing, in bytes. */
#define DREICHNOOK_LIMIT 16777216

/* Room in bytes that the index of a listing of this length always fits. That is proved: refusal 34 doesn't come then. */
#define DREICHNOOK_INDEX_ROOM(length) ((length) / 4)

/* How many numbers there are in the index: in its head, of each sequence in the table of contents, in a body before its
 * features, of each feature. */
enum { DREICHNOOK_INDEX_HEAD = 1, DREICHNOOK_INDEX_ENTRY = 2, DREICHNOOK_INDEX_BODY = 3, DREICHNOOK_INDEX_FEATURE = 4 };

/* What a call returns. The others of 10 to 29 are rules on values, as 18 and 40 to 42 are. */
enum {
    DREICHNOOK_ANSWERED = 0,
    DREICHNOOK_TOO_LONG = 1,
    DREICHNOOK_NOT_THE_LAYOUT = 2,
    DREICHNOOK_NOT_A_SYMBOL = 18,
    DREICHNOOK_NO_SEQUENCE = 30,
    DREICHNOOK_SKIPPED = 31,
    DREICHNOOK_NO_FEATURE = 32,
    DREICHNOOK_NO_QUALIFIER = 33,
    DREICHNOOK_NO_ROOM = 34,
    DREICHNOOK_NOT_A_CDS = 35,
    DREICHNOOK_UNJUDGED = 36,
    DREICHNOOK_STOP_INSIDE = 37,
    DREICHNOOK_UNKNOWN_KEY = 40,
    DREICHNOOK_NOT_ALLOWED = 41,
    DREICHNOOK_REQUIRED_MISSING = 42,
    DREICHNOOK_INDEX_DIFFERS = 50
};

/* The kinds of sequences; none only on refusal, and in the index of a skipped one. */
enum { DREICHNOOK_KIND_NONE = 0, DREICHNOOK_DNA = 1, DREICHNOOK_RNA = 2, DREICHNOOK_AA = 3 };

/* The operators of locations; that of complement(join(..)) is join. */
enum { DREICHNOOK_OPERATOR_NONE = 0, DREICHNOOK_JOIN = 1, DREICHNOOK_ORDER = 2 };

/* The marks of a span, added up: complemented; `<` is written; `>` is written; a site, x^y. */
enum { DREICHNOOK_COMPLEMENT = 1, DREICHNOOK_BEFORE = 2, DREICHNOOK_AFTER = 4, DREICHNOOK_SITE = 8 };

/*
 * The verdict, and what an accepted listing holds: its sequences, how many of them are skipped, the features of all, the
 * CDS features of DNA and RNA that are judged, and those that aren't.
 *
 * Returns 0: accepted. Refusals: 1, 2, 10 to 29, 40 to 42.
 */
uint32_t dreichnook_check(const uint8_t *listing, size_t length, uint64_t *place, uint64_t *total, uint64_t *skipped,
                          uint64_t *features, uint64_t *judged, uint64_t *unjudged);

/*
 * The kind of a sequence, and its residues as a part.
 *
 * Refusals: the check's, 30, 31.
 */
uint32_t dreichnook_sequence(const uint8_t *listing, size_t length, uint64_t sequence, uint64_t *place, uint8_t *kind,
                             uint64_t *start, uint64_t *size);

/*
 * A feature: its key and its location as parts; the location's operator, how many spans it has, and for each three
 * numbers at the front of `out`: first, last, marks. The spans stand in reading order from the feature's 5' end; first
 * and last are the numbers written. A lone x has first = last = x; a site x^y has x and y.
 *
 * `room` counts numbers, not spans: the answer takes 3 * count. A location of n bytes has at most n / 2 + 1 spans, so
 * room for 3 * (n / 2 + 1) numbers always suffices. An index has n, the length of the location. Without one, ask with
 * some room, and after 34 again with more; n is less than `length`.
 *
 * Short room refuses the whole call. 34 does as every refusal does: both parts are empty (start 0, size 0), operator and
 * count are 0, and nothing is written.
 *
 * Refusals: the check's, 30, 31, 32, 34.
 */
uint32_t dreichnook_feature(const uint8_t *listing, size_t length, uint64_t sequence, uint64_t feature, uint32_t *out,
                            size_t room, uint64_t *place, uint64_t *key_start, uint64_t *key_size,
                            uint64_t *location_start, uint64_t *location_size, uint8_t *operator_, uint64_t *count);

/*
 * The name of a qualifier as a part, whether it has a value (1, else 0), and the value as a part. Without a value
 * `*value_start` and `*value_size` are 0. A value may be present and empty.
 *
 * Refusals: the check's, 30, 31, 32, 33.
 */
uint32_t dreichnook_qualifier(const uint8_t *listing, size_t length, uint64_t sequence, uint64_t feature,
                              uint64_t qualifier, uint64_t *place, uint64_t *name_start, uint64_t *name_size,
                              uint8_t *present, uint64_t *value_start, uint64_t *value_size);

/*
 * The translation of a judged CDS of DNA or RNA, at the front of `out`, and its size in bytes. A stop at the end is
 * dropped. An ambiguous codon gives the letter that all its plain codons give; `B` where they give exactly N and D, `Z`
 * where Q and E, `J` where I and L; else `X`. Through repeated members of a join it can be longer than the listing.
 *
 * Refusals: the check's, 30, 31, 32, 35, 36, 37, 34.
 */
uint32_t dreichnook_translation(const uint8_t *listing, size_t length, uint64_t sequence, uint64_t feature, uint8_t *out,
                                size_t room, uint64_t *place, uint64_t *size);

/*
 * The translations of all CDS features of a sequence of DNA or RNA, in the order of the listing, each closed by byte 10,
 * at the front of `out`, and their size in bytes with those. A CDS that is unjudged or has a stop inside gives `-`.
 * A sequence of amino acids has none: size 0.
 *
 * Refusals: the check's, 30, 31, 34.
 */
uint32_t dreichnook_translations(const uint8_t *listing, size_t length, uint64_t sequence, uint8_t *out, size_t room,
                                 uint64_t *place, uint64_t *size);

/*
 * The index of the listing, at the front of `out`, and its size in bytes. Room for DREICHNOOK_INDEX_ROOM(length) bytes
 * always suffices.
 *
 * Refusals: the check's, 34.
 */
uint32_t dreichnook_index(const uint8_t *listing, size_t length, uint8_t *out, size_t room, uint64_t *place,
                          uint64_t *size);

/*
 * Whether the index is that of the listing: the one that dreichnook_index writes for it, byte for byte.
 *
 * Refusals: the check's, 50.
 */
uint32_t dreichnook_index_check(const uint8_t *listing, size_t length, const uint8_t *index, size_t index_length,
                                uint64_t *place);

/*
 * The lookups with an index. Each answers as the one of its name without `indexed` does.
 *
 * Refusals: the check's, 50, then the others of that one.
 */
uint32_t dreichnook_indexed_sequence(const uint8_t *listing, size_t length, const uint8_t *index, size_t index_length,
                                     uint64_t sequence, uint64_t *place, uint8_t *kind, uint64_t *start, uint64_t *size);

uint32_t dreichnook_indexed_feature(const uint8_t *listing, size_t length, const uint8_t *index, size_t index_length,
                                    uint64_t sequence, uint64_t feature, uint32_t *out, size_t room, uint64_t *place,
                                    uint64_t *key_start, uint64_t *key_size, uint64_t *location_start,
                                    uint64_t *location_size, uint8_t *operator_, uint64_t *count);

uint32_t dreichnook_indexed_qualifier(const uint8_t *listing, size_t length, const uint8_t *index, size_t index_length,
                                      uint64_t sequence, uint64_t feature, uint64_t qualifier, uint64_t *place,
                                      uint64_t *name_start, uint64_t *name_size, uint8_t *present,
                                      uint64_t *value_start, uint64_t *value_size);

uint32_t dreichnook_indexed_translation(const uint8_t *listing, size_t length, const uint8_t *index, size_t index_length,
                                        uint64_t sequence, uint64_t feature, uint8_t *out, size_t room, uint64_t *place,
                                        uint64_t *size);

uint32_t dreichnook_indexed_translations(const uint8_t *listing, size_t length, const uint8_t *index,
                                         size_t index_length, uint64_t sequence, uint8_t *out, size_t room,
                                         uint64_t *place, uint64_t *size);

#ifdef __cplusplus
}
#endif

#endif
