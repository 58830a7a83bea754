/* What bad use of the C library gets, and that calls leave nothing behind. Prints what is wrong, and ends with 1 where something is. */
#define _POSIX_C_SOURCE 200809L
#include "allocations.h"
#include "matbench.h"

#include <signal.h>
#include <stdio.h>
#include <stdlib.h>
#include <string.h>
#include <unistd.h>

enum { ROOM = 1 << 20, MOST_DESCRIPTION = 4194304, MOST_CERTIFICATE = 67108864, CALLS = 200 };

static const char *const test = "bad_use.c";
static char room[ROOM], note_room[256], whole[ROOM];
/* The whole answer to PAIR, as the first test has it. */
static matbench_buffer full = {whole, ROOM, 0};

static const char PAIR[] = "matroids 1\npair 4\nweights 3 1 4 1\npartition 1\nclass 1 0 2\nuniform 3\nend\n";
static const char *const INTERSECT[] = {"intersect", "f", NULL};

static int call_with(const char *const *words, const void *bytes, size_t length, matbench_buffer *output, matbench_buffer *note) {
    matbench_file file = {"f", bytes, length};
    return matbench_call(words, &file, 1, output, note);
}

static int has_note(const matbench_buffer *note, const char *text) {
    return note->length == strlen(text) && !memcmp(note->bytes, text, note->length);
}

static void try_words_and_files(void) {
    matbench_buffer output = {room, ROOM, 0}, note = {note_room, sizeof note_room, 0};
    hold("a right call", call_with(INTERSECT, PAIR, strlen(PAIR), &full, &note) == MATBENCH_DONE && full.length > 100 && note.length == 0);
    hold("a call without a note", call_with(INTERSECT, PAIR, strlen(PAIR), &output, NULL) == MATBENCH_DONE);
    const char *const other[] = {"intersect", "g", NULL};
    hold("a file that is not there", call_with(other, PAIR, strlen(PAIR), &output, &note) == MATBENCH_READ_FAULT && output.length == 0
        && has_note(&note, "refused: read fault\n"));
    const char *const real[] = {"intersect", "/etc/passwd", NULL};
    hold("a file of the system", call_with(real, PAIR, strlen(PAIR), &output, &note) == MATBENCH_READ_FAULT);
    const char *const standard[] = {"intersect", "-", NULL};
    hold("no standard input", call_with(standard, PAIR, strlen(PAIR), &output, &note) == MATBENCH_READ_FAULT);
    matbench_file given = {"-", PAIR, strlen(PAIR)};
    hold("standard input", matbench_call(standard, &given, 1, &output, &note) == MATBENCH_DONE);
    const char *const none[] = {NULL};
    hold("no words", call_with(none, PAIR, strlen(PAIR), &output, &note) == MATBENCH_USAGE && has_note(&note, "refused: usage\n"));
    char *word = malloc(ROOM + 1);
    memset(word, 'x', ROOM);
    word[ROOM] = 0;
    const char *const long_word[] = {"intersect", word, NULL};
    hold("a long word", call_with(long_word, PAIR, strlen(PAIR), &output, &note) == MATBENCH_READ_FAULT);
    const char *const unknown[] = {word, "f", NULL};
    hold("an unknown word", call_with(unknown, PAIR, strlen(PAIR), &output, &note) == MATBENCH_USAGE);
    word[1000] = 0;
    matbench_file named = {word, PAIR, strlen(PAIR)};
    hold("a long name", matbench_call(long_word, &named, 1, &output, &note) == MATBENCH_DONE);
    free(word);
    hold("an empty file", call_with(INTERSECT, NULL, 0, &output, &note) == MATBENCH_BAD_DESCRIPTION);
}

static void try_null_pointers(void) {
    matbench_buffer output = {room, ROOM, 0}, unplaced = {NULL, 1, 0};
    matbench_file unnamed = {NULL, PAIR, 1};
    hold("null words", call_with(NULL, PAIR, 1, &output, NULL) == MATBENCH_NO_CALL);
    hold("null bytes", call_with(INTERSECT, NULL, 1, &output, NULL) == MATBENCH_NO_CALL);
    hold("a null name", matbench_call(INTERSECT, &unnamed, 1, &output, NULL) == MATBENCH_NO_CALL);
    hold("null files", matbench_call(INTERSECT, NULL, 1, &output, NULL) == MATBENCH_NO_CALL);
    hold("a null output", call_with(INTERSECT, PAIR, 1, NULL, NULL) == MATBENCH_NO_CALL);
    hold("an output without bytes", call_with(INTERSECT, PAIR, 1, &unplaced, NULL) == MATBENCH_NO_CALL);
    hold("a note without bytes", call_with(INTERSECT, PAIR, 1, &output, &unplaced) == MATBENCH_NO_CALL);
}

static void try_small_buffers(void) {
    int holds = 1;
    for (size_t size = 0; size <= full.length; size++) {
        memset(room, '#', full.length + 1);
        matbench_buffer output = {size ? room : NULL, size, 0}, note = {note_room, sizeof note_room, 0};
        int status = call_with(INTERSECT, PAIR, strlen(PAIR), &output, &note);
        holds &= status == (size < full.length ? MATBENCH_WRITE_FAULT : MATBENCH_DONE) && output.length == size && room[size] == '#';
        holds &= !memcmp(room, whole, size) && has_note(&note, size < full.length ? "refused: write fault\n" : "");
    }
    hold("a buffer that is too small", holds);
    matbench_buffer output = {room, ROOM, 0}, note = {note_room, 5, 0};
    hold("a note that has no room", call_with(INTERSECT, "x", 1, &output, &note) == MATBENCH_BAD_DESCRIPTION && has_note(&note, "refus"));
}

static void try_long_texts(void) {
    matbench_buffer output = {room, ROOM, 0}, note = {note_room, sizeof note_room, 0};
    char *text = malloc(MOST_CERTIFICATE + 1);
    memset(text, 'x', MOST_CERTIFICATE + 1);
    hold("a description of the largest length", call_with(INTERSECT, text, MOST_DESCRIPTION, &output, &note) == MATBENCH_BAD_DESCRIPTION);
    hold("a description that is too long", call_with(INTERSECT, text, MOST_DESCRIPTION + 1, &output, &note) == MATBENCH_TOO_LONG
        && has_note(&note, "refused: too long\n"));
    const char *const words[] = {"check", "f", "c", NULL};
    matbench_file files[] = {{"f", PAIR, strlen(PAIR)}, {"c", text, MOST_CERTIFICATE}};
    hold("a certificate of the largest length", matbench_call(words, files, 2, &output, &note) == MATBENCH_BAD_CERTIFICATE);
    files[1].length++;
    hold("a certificate that is too long", matbench_call(words, files, 2, &output, &note) == MATBENCH_TOO_LONG);
    free(text);
}

static outcome answer(void) {
    matbench_buffer output = {room, ROOM, 0}, note = {note_room, sizeof note_room, 0};
    int status = call_with(INTERSECT, PAIR, strlen(PAIR), &output, &note);
    if (status == MATBENCH_MEMORY && output.length == 0 && has_note(&note, "refused: memory\n")) return REFUSED;
    int is_whole = status == MATBENCH_DONE && output.length == full.length && !memcmp(room, whole, full.length);
    return is_whole ? WHOLE : OTHERWISE;
}

static int sample(int number, char *text) {
    char size[16], seed[16];
    snprintf(size, sizeof size, "%d", 20 + 7 * number);
    snprintf(seed, sizeof seed, "%d", number + 1);
    const char *const words[] = {"sample", "--workers", number % 2 ? "2" : "1", "pair", size, seed, NULL};
    matbench_buffer output = {text, MOST_SAMPLE - 1, 0};
    int status = matbench_call(words, NULL, 0, &output, NULL);
    text[output.length] = 0;
    return status == MATBENCH_DONE;
}

static void try_what_is_left(void) {
    matbench_buffer output = {room, ROOM, 0}, note = {note_room, sizeof note_room, 0};
    signal(SIGPIPE, SIG_DFL);
    long before = held;
    int next = dup(0);
    close(next);
    for (int i = 0; i < CALLS; i++) {
        call_with(INTERSECT, PAIR, strlen(PAIR), &output, &note);
        call_with(INTERSECT, "x", 1, &output, &note);
        output.room = 10;
        call_with(INTERSECT, PAIR, strlen(PAIR), &output, &note);
        output.room = ROOM;
    }
    hold("memory that is not freed", held == before);
    int after = dup(0);
    close(after);
    hold("files that are not closed", after == next);
    hold("a signal that is changed", signal(SIGPIPE, SIG_DFL) == SIG_DFL);
}

int main(void) {
    try_words_and_files();
    try_null_pointers();
    try_small_buffers();
    try_long_texts();
    try_little_memory();
    try_what_is_left();
    try_threads();
    return end();
}
