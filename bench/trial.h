/* The proved calls, as the crate `trial` lends them. A slice is a pointer and a length. */
#ifndef TRIAL_H
#define TRIAL_H

#include <stddef.h>
#include <stdint.h>

/* 0, or the number of the broken rule, with its place. */
size_t trial_layout(const uint8_t *listing, size_t length, size_t *place);

/* 0 with the facts of a location in a sequence of `top` residues, or 24. */
uint32_t trial_location(const uint8_t *part, size_t length, uint32_t top, uint32_t *wrong, uint32_t *complemented,
                        uint32_t *unjudged);

/* 0 with the spans written, or 24, 25, 34. */
uint32_t trial_spans(const uint8_t *part, size_t length, uint32_t top, uint32_t *out, size_t room, uint32_t *operator,
                     size_t *count);

/* 0 with the translation written and its length, or 37, 34. */
uint32_t trial_translation(const uint8_t *residues, size_t count, const uint8_t *location, size_t length, uint32_t top,
                           size_t codon_start, uint8_t *out, size_t room, size_t *size);

/* 1 where the value is the translation, else 0. */
uint32_t trial_is_right(const uint8_t *residues, size_t count, const uint8_t *location, size_t length, uint32_t top,
                        size_t codon_start, const uint8_t *value, size_t value_length);

#endif
