#include "transeq.h"

#include <fcntl.h>
#include <spawn.h>
#include <string.h>
#include <sys/resource.h>
#include <sys/wait.h>

extern char **environ;

static void write_fasta(const char *path, struct bytes residues)
{
    enum { WIDTH = 60 };
    FILE *file = fopen(path, "wb");
    if (file == NULL) {
        die(path, "can't be written");
    }
    fputs(">residues\n", file);
    for (size_t at = 0; at < residues.length; at += WIDTH) {
        const size_t left = residues.length - at;
        fwrite(residues.at + at, 1, left < WIDTH ? left : WIDTH, file);
        fputc('\n', file);
    }
    if (fclose(file) != 0) {
        die(path, "can't be written");
    }
}

/* The letters of a file with one sequence. */
static struct bytes read_fasta(const char *path)
{
    struct bytes file = load(path);
    const uint8_t *end = file.at + file.length;
    const uint8_t *line = memchr(file.at, '\n', file.length);
    size_t count = 0;
    for (const uint8_t *byte = line == NULL ? end : line; byte < end; byte++) {
        if (*byte != '\n') {
            file.at[count++] = *byte;
        }
    }
    file.length = count;
    return file;
}

/* Runs a program to its end; the processor's time that it took. */
static double run(char *const arguments[])
{
    posix_spawn_file_actions_t actions;
    posix_spawn_file_actions_init(&actions);
    posix_spawn_file_actions_addopen(&actions, 2, "/dev/null", O_WRONLY, 0);
    pid_t child;
    if (posix_spawnp(&child, arguments[0], &actions, NULL, arguments, environ) != 0) {
        die(arguments[0], "can't be run");
    }
    posix_spawn_file_actions_destroy(&actions);
    int status = 0;
    struct rusage usage;
    if (wait4(child, &status, 0, &usage) != child || status != 0) {
        die(arguments[0], "failed");
    }
    const double user = (double)usage.ru_utime.tv_sec + (double)usage.ru_utime.tv_usec / 1e6;
    const double system = (double)usage.ru_stime.tv_sec + (double)usage.ru_stime.tv_usec / 1e6;
    return user + system;
}

struct transeq transeq_open(const char *folder, const char *name, struct bytes residues, char *frame)
{
    struct transeq question = {path_of(folder, name, "fasta"), path_of(folder, name, "pep"), frame, 1e9};
    write_fasta(question.from, residues);
    return question;
}

void transeq_run(struct transeq *question)
{
    char *const arguments[] = {"transeq",   "-auto",        "-frame",  question->frame,
                               "-sequence", question->from, "-outseq", question->to,
                               NULL};
    const double time = run(arguments);
    question->best = time < question->best ? time : question->best;
}

struct bytes transeq_letters(const struct transeq *question)
{
    return read_fasta(question->to);
}
