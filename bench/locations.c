/* Measures the proved location reader on the longest locations: judging, and spans into lent room. */
#include "tools.h"
#include "trial.h"

#include <stdbool.h>
#include <stdlib.h>
#include <string.h>

/* 16,777,216 bytes is the longest listing. No sequence is longer, and no location. */
enum { LONGEST = 16777216 };

/* Each question must be answered in less than this time. */
static const double limit_seconds = 1.0;

static void write_nested(FILE *text, size_t count)
{
    for (size_t i = 0; i < count; i++) {
        fputs("complement(", text);
    }
}

static void write_digits(FILE *text, size_t count)
{
    for (size_t i = 0; i < count; i++) {
        fputc('9', text);
    }
}

/* Ranges of seven or eight digits on both sides. */
static void write_join(FILE *text, size_t count)
{
    fputs("join(", text);
    for (size_t i = 0; i < count; i++) {
        fprintf(text, "%s%zu..%zu", i == 0 ? "" : ",", 1000000 + i, LONGEST - i);
    }
    fputs(")", text);
}

static void write_complement_of_join(FILE *text, size_t count)
{
    fputs("complement(", text);
    write_join(text, count);
    fputs(")", text);
}

/* The shortest members, so that as many as possible fit. */
static void write_complement_of_ones(FILE *text, size_t count)
{
    fputs("complement(join(1", text);
    for (size_t i = 1; i < count; i++) {
        fputs(",1", text);
    }
    fputs("))", text);
}

/* A location, what must be said of it, and its number of spans, where it is one that keeps rule 25. */
static const struct question {
    const char *words;
    void (*write)(FILE *text, size_t size);
    size_t size;
    uint32_t judged;
    uint32_t given;
    size_t spans;
} questions[] = {
    {"1,400,000 complements, nested", write_nested, 1400000, 24, 24, 0},
    {"16 MiB of digits", write_digits, LONGEST, 0, 25, 0},
    {"join of 700,000 members", write_join, 700000, 0, 0, 700000},
    {"complement of a join of 700,000 members", write_complement_of_join, 700000, 0, 0, 700000},
    {"complement of a join of 8,000,000 members", write_complement_of_ones, 8000000, 0, 0, 8000000},
};

/* The time on the wall of one judgement. */
static double judge(const struct question *question, struct bytes part)
{
    uint32_t wrong, complemented, unjudged;
    const double start = wall_time();
    const uint32_t number = trial_location(part.at, part.length, LONGEST, &wrong, &complemented, &unjudged);
    const double time = wall_time() - start;
    if (number != question->judged) {
        die(question->words, "judged wrongly");
    }
    return time;
}

/* The time on the wall of the spans into lent room, with the judgement that they begin with. */
static double give_spans(const struct question *question, struct bytes part, uint32_t *out)
{
    uint32_t operator;
    size_t count = 0;
    const double start = wall_time();
    const uint32_t number = trial_spans(part.at, part.length, LONGEST, out, 3 * question->spans, &operator, &count);
    const double time = wall_time() - start;
    if (number != question->given || count != question->spans) {
        die(question->words, "other spans");
    }
    return time;
}

/* One row: the longest of three turns, for a limit is a promise about each. True if all are short enough. */
static bool measure(const struct question *question)
{
    const struct bytes part = text_of(question->write, question->size);
    if (part.length > LONGEST) {
        die(question->words, "longer than a listing");
    }
    /* The lent room is touched beforehand, so that the system's work to map it isn't counted. */
    const size_t room = 3 * question->spans * sizeof(uint32_t);
    uint32_t *out = memset(room_for(room), 0, room);
    double judged = 0;
    double given = 0;
    for (int turn = 0; turn < 3; turn++) {
        const double judging = judge(question, part);
        const double giving = give_spans(question, part, out);
        judged = judging > judged ? judging : judged;
        given = giving > given ? giving : given;
    }
    const bool met = judged < limit_seconds && given < limit_seconds;
    printf("%-42s %10.1f %12.1f  %s\n", question->words, 1e3 * judged, 1e3 * given, met ? "met" : "MISSED");
    free(out);
    free(part.at);
    return met;
}

int main(void)
{
    bool met = true;
    printf("Locations in milliseconds on the wall, longest of 3; less than %.0f s each\n", limit_seconds);
    printf("%-42s %10s %12s\n", "location", "judged", "with spans");
    for (size_t i = 0; i < COUNT(questions); i++) {
        met = measure(&questions[i]) && met;
    }
    return met ? 0 : 1;
}
