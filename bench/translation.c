/* Measures the proved translation beside two peers, and compares its letters with theirs: translation ROUNDS FOLDER
   Files for transeq are made in FOLDER. Its rows go on with the table of listings.c. */
#include "table.h"
#include "table_loop.h"
#include "tools.h"
#include "transeq.h"
#include "trial.h"

#include <stdbool.h>
#include <stdlib.h>
#include <string.h>

/* A member of a join has so many residues. */
enum { MEMBER = 3000 };

/* How fast the proved calls must be at least beside the loop. */
static const double loop_target = 0.5;

/* The coding texts: one that a listing of 60 KiB has room for; one of a million residues; and one so long that a listing of
   16,777,216 bytes has just room for it and for a join of all its members. How fast the proved calls must be at least beside
   transeq as it is run: on the longest there is no target (docs/DECISIONS.md). */
static const struct size {
    size_t members;
    double transeq_target;
} sizes[] = {{19, 40.0}, {350, 40.0}, {5550, 0.0}};

/* A coding region with what the peers need to know of it. */
struct region {
    const char *words;
    struct bytes residues;
    struct bytes location;
    bool complemented;
    /* The loop takes so many residues at once. */
    size_t member;
    /* The letters of all codons; the last is a stop. */
    struct bytes letters;
    /* transeq on the same residues; an ambiguous text is not for it, and has no target. */
    struct transeq *transeq;
};

/* The tables of the loop, made once. */
static const struct tables *loop_tables(void)
{
    static const struct tables *tables;
    if (tables == NULL) {
        tables = table_loop_tables();
    }
    return tables;
}

/* ---- the coding text */

/* Any number (splitmix64). */
static uint64_t any_number(uint64_t *state)
{
    uint64_t mixed = *state += 0x9e3779b97f4a7c15;
    mixed = (mixed ^ (mixed >> 30)) * 0xbf58476d1ce4e5b9;
    mixed = (mixed ^ (mixed >> 27)) * 0x94d049bb133111eb;
    return mixed ^ (mixed >> 31);
}

/* The plain codon of this number, 0 to 63. */
static void write_codon(FILE *text, unsigned number)
{
    static const char bases[] = "tcag";
    fputc(bases[number / 16], text);
    fputc(bases[number / 4 % 4], text);
    fputc(bases[number % 4], text);
}

static bool is_stop(unsigned codon)
{
    enum { TAA = 10, TAG = 11, TGA = 14 };
    return codon == TAA || codon == TAG || codon == TGA;
}

/* Plain codons of any kind, and a stop only at the end. */
static void write_residues(FILE *text, size_t codons)
{
    uint64_t state = 1;
    for (size_t written = 1; written < codons;) {
        const unsigned codon = any_number(&state) % 64;
        if (!is_stop(codon)) {
            write_codon(text, codon);
            written++;
        }
    }
    fputs("taa", text);
}

/* Codons of any of the fifteen symbols, and a stop only at the end. */
static void write_ambiguous(FILE *text, size_t codons)
{
    static const char symbols[] = "acgtmrwsykvhdbn";
    uint64_t state = 1;
    for (size_t written = 1; written < codons;) {
        uint8_t codon[3];
        for (size_t i = 0; i < COUNT(codon); i++) {
            codon[i] = (uint8_t)symbols[any_number(&state) % strlen(symbols)];
        }
        uint8_t letter = 0;
        table_loop_forward(loop_tables(), codon, sizeof codon, &letter);
        if (letter != '*') {
            fwrite(codon, sizeof codon, 1, text);
            written++;
        }
    }
    fputs("taa", text);
}

static void write_plain_codons(FILE *text, size_t count)
{
    for (unsigned codon = 0; codon < count; codon++) {
        write_codon(text, codon);
    }
}

static uint8_t complement(uint8_t symbol)
{
    static const char pairs[] = "atcgmkryvbhd";
    const char *found = memchr(pairs, symbol, strlen(pairs));
    return found == NULL ? symbol : (uint8_t)pairs[(size_t)(found - pairs) ^ 1];
}

/* The other strand. */
static struct bytes reversed(struct bytes residues)
{
    struct bytes other = {room_for(residues.length), residues.length};
    for (size_t i = 0; i < residues.length; i++) {
        other.at[i] = complement(residues.at[residues.length - 1 - i]);
    }
    return other;
}

/* ---- locations */

static void write_range(FILE *text, size_t last)
{
    fprintf(text, "1..%zu", last);
}

static void write_complement(FILE *text, size_t last)
{
    fprintf(text, "complement(1..%zu)", last);
}

static void write_join(FILE *text, size_t last)
{
    fputs("join(", text);
    for (size_t at = 0; at < last; at += MEMBER) {
        fprintf(text, "%s%zu..%zu", at == 0 ? "" : ",", at + 1, at + MEMBER);
    }
    fputs(")", text);
}

/* ---- the calls: each gives the time it took, and checks the answer against the letters of all codons */

static double write_proved(const struct region *region, struct bytes out)
{
    size_t size = 0;
    const double start = processor_time();
    const uint32_t number =
        trial_translation(region->residues.at, region->residues.length, region->location.at, region->location.length,
                          (uint32_t)region->residues.length, 1, out.at, out.length, &size);
    const double time = processor_time() - start;
    if (number != 0 || size != region->letters.length - 1 || memcmp(out.at, region->letters.at, size) != 0) {
        die(region->words, "the proved translation is another");
    }
    return time;
}

static double compare_proved(const struct region *region, struct bytes out)
{
    (void)out;
    const double start = processor_time();
    const uint32_t right =
        trial_is_right(region->residues.at, region->residues.length, region->location.at, region->location.length,
                       (uint32_t)region->residues.length, 1, region->letters.at, region->letters.length - 1);
    const double time = processor_time() - start;
    if (right != 1) {
        die(region->words, "the right value is refused");
    }
    return time;
}

static double write_loop(const struct region *region, struct bytes out)
{
    const struct tables *tables = loop_tables();
    const double start = processor_time();
    for (size_t at = 0; at < region->residues.length; at += region->member) {
        if (region->complemented) {
            table_loop_backward(tables, region->residues.at + at, region->member, out.at + at / 3);
        } else {
            table_loop_forward(tables, region->residues.at + at, region->member, out.at + at / 3);
        }
    }
    const double time = processor_time() - start;
    if (memcmp(out.at, region->letters.at, region->letters.length) != 0) {
        die(region->words, "the loop's translation is another");
    }
    return time;
}

typedef double call(const struct region *region, struct bytes out);

/* ---- measuring */

/* A proved call on a region, with its row of the table. */
struct question {
    call *proved;
    const struct region *region;
    char words[48];
    struct row row;
};

static void open_question(struct question *question, const char *what, call *proved, const struct region *region,
                          double transeq_target)
{
    question->proved = proved;
    question->region = region;
    snprintf(question->words, sizeof question->words, "%s, %s", what, region->words);
    question->row = row_of(question->words, region->residues.length);
    if (region->transeq != NULL) {
        question->row.targets[TABLE_LOOP] = loop_target;
        question->row.targets[TRANSEQ] = transeq_target;
    }
}

/* The loop and the proved call, one after the other, each with room that has no letters yet. */
static void take_turns(struct question *question, struct bytes out)
{
    memset(out.at, 0, out.length);
    keep_least(&question->row.peers[TABLE_LOOP], write_loop(question->region, out));
    memset(out.at, 0, out.length);
    keep_least(&question->row.proved, question->proved(question->region, out));
}

/* The letter of one codon by the proved translation: a stop alone is dropped. */
static uint8_t proved_letter(const uint8_t *codon)
{
    static const char location[] = "1..3";
    uint8_t letter = '*';
    size_t size = 0;
    if (trial_translation(codon, 3, (const uint8_t *)location, strlen(location), 3, 1, &letter, 1, &size) != 0) {
        die("a codon alone", "refused");
    }
    return letter;
}

/* All 64 plain codons have transeq's letters. */
static void compare_codons(struct bytes codons, struct bytes letters)
{
    if (letters.length != 64 || codons.length != 3 * letters.length) {
        die("transeq", "not 64 letters for 64 codons");
    }
    for (size_t i = 0; i < letters.length; i++) {
        if (proved_letter(codons.at + 3 * i) != letters.at[i]) {
            die("a plain codon", "transeq has another letter");
        }
    }
}

/* The three questions to transeq: its start-up, which is that of a short text, and the text on either strand. */
enum { START_UP, FORWARD, BACKWARD, QUESTIONS };

static void run_all(struct transeq *peers)
{
    for (int i = 0; i < QUESTIONS; i++) {
        transeq_run(&peers[i]);
    }
}

/* transeq's letters of the text, the same on either strand, with the stop at the end. */
static struct bytes letters_of(const struct transeq *peers, size_t count)
{
    const struct bytes letters = transeq_letters(&peers[FORWARD]);
    const struct bytes others = transeq_letters(&peers[BACKWARD]);
    if (letters.length != count || others.length != count || memcmp(letters.at, others.at, count) != 0) {
        die("transeq", "not the letters of the text on either strand");
    }
    free(others.at);
    return letters;
}

/* The loop's letters of a text in one span. */
static struct bytes loop_letters(struct bytes residues)
{
    const struct bytes letters = {room_for(residues.length / 3), residues.length / 3};
    table_loop_forward(loop_tables(), residues.at, residues.length, letters.at);
    return letters;
}

/* A round has a turn of each question and of transeq, so that none alone has the bad times of a machine that others use. */
static void take_rounds(struct question *questions, size_t count, struct transeq *peers, size_t letters, int rounds)
{
    const struct bytes out = {room_for(letters), letters};
    for (int round = 0; round < rounds; round++) {
        run_all(peers);
        for (size_t i = 0; i < count; i++) {
            take_turns(&questions[i], out);
        }
    }
    free(out.at);
}

/* Writes and compares the translation of the regions of a size. True if every target is met. */
static bool measure(const struct size *size, const char *folder, int rounds)
{
    const size_t residues = MEMBER * size->members;
    const size_t count = residues / 3;
    const struct bytes codons = text_of(write_plain_codons, 64);
    const struct bytes forward = text_of(write_residues, count);
    const struct bytes backward = reversed(forward);
    const struct bytes ambiguous = text_of(write_ambiguous, count);
    struct transeq peers[QUESTIONS] = {
        [START_UP] = transeq_open(folder, "codons", codons, "1"),
        [FORWARD] = transeq_open(folder, "forward", forward, "1"),
        [BACKWARD] = transeq_open(folder, "backward", backward, "-1"),
    };
    run_all(peers);
    compare_codons(codons, transeq_letters(&peers[START_UP]));
    const struct bytes plain_letters = letters_of(peers, count);
    const struct bytes ambiguous_letters = loop_letters(ambiguous);
    const struct bytes range = text_of(write_range, residues);
    const struct bytes complemented = text_of(write_complement, residues);
    struct transeq *ahead = &peers[FORWARD];
    struct transeq *behind = &peers[BACKWARD];
    char join[32];
    snprintf(join, sizeof join, "join of %zu", size->members);
    const struct region regions[] = {
        {"one span", forward, range, false, residues, plain_letters, ahead},
        {"complement", backward, complemented, true, residues, plain_letters, behind},
        {join, forward, text_of(write_join, residues), false, MEMBER, plain_letters, ahead},
        {"ambiguous", ambiguous, range, false, residues, ambiguous_letters, NULL},
        {"ambiguous complement", reversed(ambiguous), complemented, true, residues, ambiguous_letters, NULL},
    };
    struct question questions[2 * COUNT(regions)];
    for (size_t i = 0; i < COUNT(regions); i++) {
        open_question(&questions[i], "translation", write_proved, &regions[i], size->transeq_target);
        open_question(&questions[COUNT(regions) + i], "value compared", compare_proved, &regions[i], size->transeq_target);
    }
    take_rounds(questions, COUNT(questions), peers, count, rounds);
    bool met = true;
    for (size_t i = 0; i < COUNT(questions); i++) {
        struct row *row = &questions[i].row;
        const struct transeq *transeq = questions[i].region->transeq;
        char note[64] = "";
        if (transeq != NULL) {
            row->peers[TRANSEQ] = transeq->best;
            snprintf(note, sizeof note, "transeq without its start-up %.1f",
                     (transeq->best - peers[START_UP].best) / row->proved);
        }
        met = tell_row(row, note) && met;
    }
    return met;
}

int main(int argc, char **argv)
{
    if (argc != 3 || atoi(argv[1]) < 1) {
        fprintf(stderr, "usage: translation ROUNDS FOLDER\n");
        return 2;
    }
    bool met = true;
    for (size_t i = 0; i < COUNT(sizes); i++) {
        met = measure(&sizes[i], argv[2], atoi(argv[1])) && met;
    }
    return met ? 0 : 1;
}
