/* Files as bytes, for the examples. */
#ifndef FILE_H
#define FILE_H

#include <stddef.h>
#include <stdint.h>
#include <stdio.h>
#include <stdlib.h>

struct bytes {
    uint8_t *at;
    size_t length;
};

static void *room_for(void *old, size_t size) {
    void *room = realloc(old, size);
    if (!room) {
        fputs("no memory\n", stderr);
        exit(3);
    }
    return room;
}

/* All bytes of a file. One that is missing or can't be read counts as empty. */
static struct bytes load(const char *path) {
    size_t size = 4096;
    struct bytes file = {room_for(NULL, size), 0};
    FILE *f = fopen(path, "rb");
    if (!f) return file;
    for (size_t n; (n = fread(file.at + file.length, 1, size - file.length, f)) > 0;) {
        file.length += n;
        if (file.length == size) file.at = room_for(file.at, size *= 2);
    }
    if (ferror(f)) file.length = 0;
    fclose(f);
    return file;
}

#endif
