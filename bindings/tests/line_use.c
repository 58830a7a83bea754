/* What bad use of the static library gets, and that calls leave nothing behind. Prints what is wrong, and ends with 1 where something is. */
#include "allocations.h"
#include "matbench_line.h"

#include <stdio.h>
#include <stdlib.h>
#include <string.h>

enum { ROOM = 1 << 20, MOST_DESCRIPTION = 4194304, MOST_CERTIFICATE = 67108864 };
enum { DONE, NOT_RIGHT, USAGE, BAD_DESCRIPTION, BAD_CERTIFICATE, READ_FAULT, WRITE_FAULT, MEMORY, TOO_LONG };

static const char *const test = "line_use.c";
static char room[ROOM], note_room[256], whole[ROOM];
/* How the first call ended, whose output is kept: the whole answer to PAIR. */
static matbench_ended full;

static const char PAIR[] = "matroids 1\npair 4\nweights 3 1 4 1\npartition 1\nclass 1 0 2\nuniform 3\nend\n";

/* A call over a description and a certificate, with so much room for its output. */
static matbench_ended call(const char *line, const void *description, size_t length, const void *certificate, size_t certificate_length,
                           size_t size) {
    return matbench_line(line, strlen(line), description, length, certificate, certificate_length, NULL, 0, size ? room : NULL, size, note_room,
                         sizeof note_room);
}

static matbench_ended intersect(size_t size) {
    return call("intersect f", PAIR, strlen(PAIR), NULL, 0, size);
}

static int is_refused(matbench_ended ended, int status, const char *note) {
    return ended.status == status && ended.output_length == 0 && ended.note_length == strlen(note) && !memcmp(note_room, note, strlen(note));
}

static void try_lines(void) {
    full = intersect(ROOM);
    memcpy(whole, room, full.output_length);
    hold("a right call", full.status == DONE && full.output_length > 100 && full.note_length == 0);
    static const char *const none[] = {"", " ", "intersect", "intersect  f", " intersect f", "intersect f ", "intersect\tf", "intersect f\n",
                                       "intersect f c", "--tell f c", "--help", "x f"};
    for (size_t i = 0; i < sizeof none / sizeof none[0]; i++)
        hold(none[i], is_refused(call(none[i], PAIR, strlen(PAIR), NULL, 0, ROOM), USAGE, "refused: usage\n"));
    hold("null bytes for a line", is_refused(matbench_line(NULL, 0, PAIR, strlen(PAIR), NULL, 0, NULL, 0, room, ROOM, note_room, sizeof note_room),
                                             USAGE, "refused: usage\n"));
    static const char *const missing[] = {"intersect g", "intersect -", "intersect /etc/passwd", "intersect F", "check f C", "batch list"};
    for (size_t i = 0; i < sizeof missing / sizeof missing[0]; i++)
        hold(missing[i], is_refused(call(missing[i], PAIR, strlen(PAIR), NULL, 0, ROOM), READ_FAULT, "refused: read fault\n"));
    hold("an empty description", call("intersect f", NULL, 0, NULL, 0, ROOM).status == BAD_DESCRIPTION);
    hold("an empty certificate", call("check f c", PAIR, strlen(PAIR), NULL, 0, ROOM).status == BAD_CERTIFICATE);
    hold("the other files", call("intersect c", "x", 1, PAIR, strlen(PAIR), ROOM).status == DONE);
}

static void try_small_buffers(void) {
    int holds = 1;
    for (size_t size = 0; size <= full.output_length; size++) {
        memset(room, '#', full.output_length + 1);
        matbench_ended ended = intersect(size);
        int is_whole = size == full.output_length;
        const char *note = is_whole ? "" : "refused: write fault\n";
        holds &= ended.status == (is_whole ? DONE : WRITE_FAULT) && ended.output_length == size && !memcmp(room, whole, size);
        holds &= room[size] == '#' && ended.note_length == strlen(note) && !memcmp(note_room, note, strlen(note));
    }
    hold("an output that is too small", holds);
    for (size_t size = 0; size <= strlen("refused: usage\n"); size++) {
        memset(note_room, '#', sizeof note_room);
        matbench_ended ended = matbench_line("x", 1, NULL, 0, NULL, 0, NULL, 0, NULL, 0, size ? note_room : NULL, size);
        hold("a note that has no room", ended.status == USAGE && ended.note_length == size && !memcmp(note_room, "refused: usage\n", size)
            && note_room[size] == '#');
    }
}

static void try_long_texts(void) {
    char *text = malloc(MOST_CERTIFICATE + 1);
    memset(text, 'x', MOST_CERTIFICATE + 1);
    hold("a description of the largest length", call("intersect f", text, MOST_DESCRIPTION, NULL, 0, ROOM).status == BAD_DESCRIPTION);
    hold("a description that is too long",
         is_refused(call("intersect f", text, MOST_DESCRIPTION + 1, NULL, 0, ROOM), TOO_LONG, "refused: too long\n"));
    hold("a certificate of the largest length",
         call("check f c", PAIR, strlen(PAIR), text, MOST_CERTIFICATE, ROOM).status == BAD_CERTIFICATE);
    hold("a certificate that is too long", call("check f c", PAIR, strlen(PAIR), text, MOST_CERTIFICATE + 1, ROOM).status == TOO_LONG);
    free(text);
}

static outcome answer(void) {
    matbench_ended ended = intersect(ROOM);
    if (ended.status == MEMORY && ended.output_length == 0) return REFUSED;
    int is_whole = ended.status == DONE && ended.output_length == full.output_length && !memcmp(room, whole, full.output_length);
    return is_whole ? WHOLE : OTHERWISE;
}

static int sample(int number, char *text) {
    char line[64];
    snprintf(line, sizeof line, "sample --workers %d pair %d %d", 1 + number % 2, 20 + 7 * number, number + 1);
    matbench_ended ended = matbench_line(line, strlen(line), NULL, 0, NULL, 0, NULL, 0, text, MOST_SAMPLE - 1, NULL, 0);
    text[ended.output_length] = 0;
    return ended.status == DONE;
}

int main(void) {
    try_lines();
    try_small_buffers();
    try_long_texts();
    try_little_memory();
    try_threads();
    return end();
}
