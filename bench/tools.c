#include "tools.h"

#include <stdlib.h>
#include <string.h>
#include <time.h>

static double seconds(clockid_t clock)
{
    struct timespec time;
    clock_gettime(clock, &time);
    return (double)time.tv_sec + (double)time.tv_nsec / 1e9;
}

double processor_time(void)
{
    return seconds(CLOCK_PROCESS_CPUTIME_ID);
}

double wall_time(void)
{
    return seconds(CLOCK_MONOTONIC);
}

void die(const char *what, const char *why)
{
    fflush(stdout);
    fprintf(stderr, "bench: %s: %s\n", what, why);
    exit(2);
}

void *room_for(size_t bytes)
{
    void *room = malloc(bytes > 0 ? bytes : 1);
    if (room == NULL) {
        die("memory", "there isn't enough");
    }
    return room;
}

struct bytes load(const char *path)
{
    FILE *file = fopen(path, "rb");
    if (file == NULL || fseek(file, 0, SEEK_END) != 0) {
        die(path, "can't be read");
    }
    const long length = ftell(file);
    if (length <= 0 || fseek(file, 0, SEEK_SET) != 0) {
        die(path, "can't be read");
    }
    struct bytes bytes = {room_for((size_t)length), (size_t)length};
    if (fread(bytes.at, 1, bytes.length, file) != bytes.length) {
        die(path, "can't be read");
    }
    fclose(file);
    return bytes;
}

struct bytes listing_of(const char *folder, const char *name)
{
    char *path = path_of(folder, name, "xml");
    const struct bytes listing = load(path);
    free(path);
    return listing;
}

struct bytes text_of(void (*write)(FILE *text, size_t size), size_t size)
{
    char *at = NULL;
    size_t length = 0;
    FILE *text = open_memstream(&at, &length);
    if (text == NULL) {
        die("memory", "there isn't enough");
    }
    write(text, size);
    if (fclose(text) != 0) {
        die("memory", "there isn't enough");
    }
    return (struct bytes){(uint8_t *)at, length};
}

char *path_of(const char *folder, const char *name, const char *ending)
{
    const size_t size = strlen(folder) + strlen(name) + strlen(ending) + 3;
    char *path = room_for(size);
    snprintf(path, size, "%s/%s.%s", folder, name, ending);
    return path;
}
