/* The peer transeq, of EMBOSS: a program that translates a FASTA file. */
#ifndef TRANSEQ_H
#define TRANSEQ_H

#include "tools.h"

/* A question to transeq: its files, the frame, and the least of the processor's times of its runs. */
struct transeq {
    char *from;
    char *to;
    char *frame;
    double best;
};

/* A question about these residues, through files NAME.fasta and NAME.pep in the folder. The frame is "1", or "-1" for
   the complemented strand. */
struct transeq transeq_open(const char *folder, const char *name, struct bytes residues, char *frame);

/* Runs transeq once more. */
void transeq_run(struct transeq *question);

/* The letters of the last run. */
struct bytes transeq_letters(const struct transeq *question);

#endif
