/* The program matbench as a function: docs/BINDINGS.md says how to build and link it, and what is trusted. */
#ifndef MATBENCH_H
#define MATBENCH_H

#include <stddef.h>

/* The version of matbench, as --version has it. */
#define MATBENCH_VERSION "@VERSION@"

#ifdef __cplusplus
extern "C" {
#endif

/* A file that a call can read: the name by which its words mean it, ended by a zero byte, and its bytes. A file of the name "-" is
 * standard input. */
typedef struct {
    const char *name;
    const void *bytes;
    size_t length;
} matbench_file;

/* Where a call writes: it has room for so many bytes, and sets length to the number of those that it wrote. */
typedef struct {
    char *bytes;
    size_t room;
    size_t length;
} matbench_buffer;

/* Each answer, certificate, witness, picture and canonical text that a call can write has room in so many bytes, but for the output of batch,
 * which has 32 times as many in MATBENCH_BATCH_ROOM. */
#define MATBENCH_ROOM ((size_t)67108864)
#define MATBENCH_BATCH_ROOM (32 * MATBENCH_ROOM)

/* What a call answers: the exit status of the program (matbench --help), or MATBENCH_NO_CALL. */
enum {
    MATBENCH_NO_CALL = -1, /* a pointer is null that must not be: nothing is read or written, and the lengths stay as they were; or the processor
                            * has no x86-64-v2, and the note says so in 134 bytes */
    MATBENCH_DONE = 0,
    MATBENCH_NOT_RIGHT = 1,
    MATBENCH_USAGE = 2,
    MATBENCH_BAD_DESCRIPTION = 3,
    MATBENCH_BAD_CERTIFICATE = 4,
    MATBENCH_READ_FAULT = 5,  /* no file of the call has the name */
    MATBENCH_WRITE_FAULT = 6, /* the output has no room for the answer: it is filled with what comes first */
    MATBENCH_MEMORY = 7,
    MATBENCH_TOO_LONG = 8,
    MATBENCH_WRONG_SHAPE = 9,
    MATBENCH_UNWITNESSED = 11,
    MATBENCH_BAD_WITNESS = 12,
    MATBENCH_BAD_COST = 13,
    MATBENCH_BAD_LIST = 14
};

/* What a status means, as docs/FORMATS.md has it. */
static inline const char *matbench_status_text(int status) {
    switch (status) {
        case MATBENCH_NO_CALL: return "a pointer is null that must not be, or the processor has no x86-64-v2";
        case MATBENCH_DONE: return "done";
        case MATBENCH_NOT_RIGHT: return "the answer in a certificate is not right; a witness does not show its rung";
        case MATBENCH_USAGE: return "the words of the call are no command, or a number among them is out of its range";
        case MATBENCH_BAD_DESCRIPTION: return "the text is no description";
        case MATBENCH_BAD_CERTIFICATE: return "the text is no certificate";
        case MATBENCH_READ_FAULT: return "a file could not be opened or read";
        case MATBENCH_WRITE_FAULT: return "the answer could not be written whole";
        case MATBENCH_MEMORY: return "there was not enough memory";
        case MATBENCH_TOO_LONG:
            return "a description or a list of jobs has more than 4,194,304 bytes, a certificate or a witness more than 67,108,864";
        case MATBENCH_WRONG_SHAPE:
            return "the command, or the command of the certificate, does not take a description of this form; or for witness and verify the "
                   "certificate is none of intersect, or has no rung RUNG";
        case MATBENCH_UNWITNESSED: return "a matroid is of a kind that has no witnesses";
        case MATBENCH_BAD_WITNESS: return "the text is no witness";
        case MATBENCH_BAD_COST: return "for cuts a cost is below 0 or has a tie";
        case MATBENCH_BAD_LIST: return "the text is no list of jobs";
        default: return "this is no status of matbench";
    }
}

/* Does what the program does for these words, such as "intersect", "people.txt", and a null pointer that ends them. It reads the given files
 * and no others, of two with one name the first, writes the answer to output, and the note of a refusal to note, which may be null. A note
 * has at most 100 bytes.
 *
 * The caller owes: each name is ended by a zero byte, each pointer reaches as many bytes as stand beside it, and output and note overlap
 * nothing else. Bytes that do not exist may be null. Calls in several threads at once are independent of each other; each needs up to
 * 262,144 bytes of stack. A call allocates by malloc, and has freed all of it when it returns.
 *
 * A call changes no handling of signals, and goes on behind a handler that returns. A handler must make no call, and must not leave one by
 * longjmp. A process that was forked may make calls, also if it was forked during a call of another thread; that call does not go on in it, and
 * keeps its memory there. */
int matbench_call(const char *const *words, const matbench_file *files, size_t file_count, matbench_buffer *output, matbench_buffer *note);

#ifdef __cplusplus
}
#endif
#endif
