/* The peer in Rust: the table loop alone (table_loop/src/lib.rs). It looks for no stops and reads no location. */
#ifndef TABLE_LOOP_H
#define TABLE_LOOP_H

#include <stddef.h>
#include <stdint.h>

struct tables;

const struct tables *table_loop_tables(void);

/* The letters of every whole codon; `out` has room for a third of the residues. */
void table_loop_forward(const struct tables *tables, const uint8_t *residues, size_t count, uint8_t *out);

/* The same on the complemented strand. */
void table_loop_backward(const struct tables *tables, const uint8_t *residues, size_t count, uint8_t *out);

#endif
