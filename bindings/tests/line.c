/* Makes a call as a user of the static library does: line [--room N] LINE [f=PATH] [c=PATH] [w=PATH], and prints what the program would print. */
#include "matbench_line.h"
#include "read_whole.h"

#include <stdio.h>
#include <stdlib.h>
#include <string.h>

enum { MOST_OUTPUT = 67108864 };

int main(int argc, char **argv) {
    size_t room = MOST_OUTPUT;
    int at = 1;
    if (argc > 3 && !strcmp(argv[1], "--room")) {
        room = strtoul(argv[2], NULL, 10);
        at = 3;
    }
    if (at >= argc) return 70;
    static const char names[] = "fcw";
    text files[3] = {{NULL, 0}, {NULL, 0}, {NULL, 0}};
    for (int i = at + 1; i < argc; i++) {
        const char *name = argv[i][0] ? strchr(names, argv[i][0]) : NULL;
        if (!name || argv[i][1] != '=') return 70;
        files[name - names] = read_whole(argv[i] + 2);
    }
    char note[256], *output = malloc(room + 1);
    if (!output) return 70;
    matbench_ended ended = matbench_line(argv[at], strlen(argv[at]), files[0].bytes, files[0].length, files[1].bytes, files[1].length,
                                         files[2].bytes, files[2].length, output, room, note, sizeof note);
    fwrite(output, 1, ended.output_length, stdout);
    fwrite(note, 1, ended.note_length, stderr);
    return ended.status;
}
