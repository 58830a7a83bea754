/* A call of matbench over memory of the caller, proved as far as this function: docs/BINDINGS.md says how to build and link it, and what is
 * trusted. */
#ifndef MATBENCH_LINE_H
#define MATBENCH_LINE_H

#include <stddef.h>

/* The version of matbench, as --version has it. */
#define MATBENCH_VERSION "@VERSION@"

#ifdef __cplusplus
extern "C" {
#endif

/* How a call ended: the exit status of the program (matbench --help), and how many bytes of the output and of the note were written. */
typedef struct {
    unsigned char status;
    size_t output_length;
    size_t note_length;
} matbench_ended;

/* Does what the program does for the words of a line, such as "check f c", over three files, f, c and w: f is mostly a description, or a list
 * of jobs, c a certificate and w a witness. The words have one space between them; a line that is not well spaced is no command, and nor are
 * --help, --version, --tell and --picture.
 *
 * What the program would write goes to the front of the output, and the note of a refusal to the front of the note, which is cut off where there
 * is no room; a note has at most 100 bytes. What stands behind both stays. Status 5 comes only where a file is needed that is none of the three,
 * and status 6 only where the output has no room for the whole answer: a call with a larger one gives it. Where memory runs out, the status is 7.
 *
 * The caller owes: each pointer reaches as many bytes as stand behind it, and the output and the note overlap nothing else. Where there are no
 * bytes, a pointer may be null. Calls in several threads at once are independent of each other; none starts a thread, and each needs up to
 * 262,144 bytes of stack. A call takes memory for copies of its texts, for what its output and its note have room for, and for what it computes
 * in, by malloc, and has freed all of it when it returns. */
matbench_ended matbench_line(const char *line, size_t line_length, const void *description, size_t description_length,
                             const void *certificate, size_t certificate_length, const void *witness, size_t witness_length, char *output,
                             size_t output_room, char *note, size_t note_room);

#ifdef __cplusplus
}
#endif
#endif
