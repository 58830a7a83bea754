/* A file as a whole, for a program that makes a call. */
#ifndef MATBENCH_READ_WHOLE_H
#define MATBENCH_READ_WHOLE_H

#include <stdio.h>
#include <stdlib.h>

typedef struct {
    char *bytes;
    size_t length;
} text;

/* The bytes of a file. The program ends with 70 where they cannot be read. */
static text read_whole(const char *path) {
    FILE *file = fopen(path, "rb");
    if (!file || fseek(file, 0, SEEK_END)) {
        perror(path);
        exit(70);
    }
    size_t size = (size_t)ftell(file);
    rewind(file);
    text it = {malloc(size + 1), 0};
    if (!it.bytes) exit(70);
    it.length = fread(it.bytes, 1, size, file);
    fclose(file);
    return it;
}

#endif
