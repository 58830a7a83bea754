/* Makes a call as a user of the C library does: call WORD .. -- NAME=PATH .., and prints what the program would print. */
#include "matbench.h"
#include "read_whole.h"

#include <stdio.h>
#include <stdlib.h>
#include <string.h>

enum { MOST_FILES = 40 };

int main(int argc, char **argv) {
    int end = 1;
    while (end < argc && strcmp(argv[end], "--")) end++;
    matbench_file files[MOST_FILES];
    size_t count = 0;
    for (int i = end + 1; i < argc && count < MOST_FILES; i++) {
        char *equals = strchr(argv[i], '=');
        if (!equals) return 70;
        *equals = 0;
        text whole = read_whole(equals + 1);
        files[count++] = (matbench_file){argv[i], whole.bytes, whole.length};
    }
    argv[end] = NULL;
    char note_bytes[256];
    matbench_buffer output = {malloc(MATBENCH_ROOM), MATBENCH_ROOM, 0}, note = {note_bytes, sizeof note_bytes, 0};
    int status = matbench_call((const char *const *)argv + 1, files, count, &output, &note);
    fwrite(output.bytes, 1, output.length, stdout);
    fwrite(note.bytes, 1, note.length, stderr);
    return status;
}
