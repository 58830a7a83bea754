/* What a call of the program is given, and what it keeps while it runs. */
#ifndef MATBENCH_CALL_H
#define MATBENCH_CALL_H

#include "../matbench.h"

enum { ENOENT = 2, EBADF = 9, EMFILE = 24, ENOSPC = 28, ESPIPE = 29 };
#ifdef __wasm__
extern int errno;
#define PER_THREAD
#else
/* What <errno.h> and <setjmp.h> of Linux on x86-64 declare. */
int *__errno_location(void);
#define errno (*__errno_location())
typedef struct {
    unsigned long words[25];
} jmp_buf[1];
int _setjmp(jmp_buf place) __attribute__((returns_twice));
_Noreturn void longjmp(jmp_buf place, int value);
#define PER_THREAD _Thread_local
#endif

typedef struct {
    const char *const *words;
    const matbench_file *files;
    size_t file_count;
    matbench_buffer *output, *note;
    /* The file that is open, or null, and where the next read of it begins. */
    const matbench_file *opened;
    size_t opened_from;
    /* Where the next read of standard input begins. */
    size_t standard_from;
#ifndef __wasm__
    /* How the program ended, and where it goes on then. */
    int status;
    jmp_buf ended;
#endif
} matbench_state;

/* The call that this thread runs, or null. */
extern PER_THREAD matbench_state *matbench_current;

/* Whether a call has all pointers that it needs. */
int matbench_is_call(const char *const *words, const matbench_file *files, size_t file_count, const matbench_buffer *output,
                     const matbench_buffer *note);

/* Begins a call with these words, files and buffers, to which nothing is written yet. */
void matbench_begin(matbench_state *call, const char *const *words, const matbench_file *files, size_t file_count, matbench_buffer *output,
                    matbench_buffer *note);

/* The program's entry. It ends by matbench_system__exit, and so does not return. */
#ifdef __wasm__
int matbench_system_main(int argc, char **argv) __asm__("main");
#else
int matbench_system_main(int argc, char **argv);
#endif

#endif
