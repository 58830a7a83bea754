/* What the program asks of the system, answered from the files and buffers of a call. build.sh gives the program these functions in place of
 * those of the C library that have the same names without matbench_system_. */
#include "call.h"

typedef __PTRDIFF_TYPE__ ssize_t;

/* The numbers of standard input, output and error, and of the one file that can be open at a time. */
enum { STANDARD_INPUT, STANDARD_OUTPUT, STANDARD_ERROR, OPENED };

PER_THREAD matbench_state *matbench_current;

static int fails(int error) {
    errno = error;
    return -1;
}

static int is_same(const char *a, const char *b) {
    while (*a && *a == *b) a++, b++;
    return *a == *b;
}

static const matbench_file *file_of(const matbench_state *call, const char *name) {
    for (size_t i = 0; i < call->file_count; i++)
        if (is_same(call->files[i].name, name)) return &call->files[i];
    return NULL;
}

static int is_buffer(const matbench_buffer *it) {
    return it->bytes || it->room == 0;
}

int matbench_is_call(const char *const *words, const matbench_file *files, size_t file_count, const matbench_buffer *output,
                     const matbench_buffer *note) {
    if (!words || !output || !is_buffer(output) || (note && !is_buffer(note)) || (!files && file_count)) return 0;
    for (size_t i = 0; i < file_count; i++)
        if (!files[i].name || (!files[i].bytes && files[i].length)) return 0;
    return 1;
}

void matbench_begin(matbench_state *call, const char *const *words, const matbench_file *files, size_t file_count, matbench_buffer *output,
                    matbench_buffer *note) {
    call->words = words;
    call->files = files;
    call->file_count = file_count;
    call->output = output;
    call->note = note;
    output->length = 0;
    if (note) note->length = 0;
    matbench_current = call;
}

/* Puts word `place` into the buffer, the program's name being word 0, and answers its length, -1 where there is none, or -2 where it has no
 * room, and then the buffer is full. */
ssize_t matbench_system_rattle_arg(size_t place, char *buffer, size_t room) {
    const char *word = "matbench";
    for (size_t i = 0; i < place; i++) {
        word = matbench_current->words[i];
        if (!word) return -1;
    }
    size_t length = 0;
    for (; word[length]; length++) {
        if (length == room) return -2;
        buffer[length] = word[length];
    }
    return (ssize_t)length;
}

/* The program opens a file for reading, and has closed it before it opens the next. */
int matbench_system_open(const char *name, int flags, ...) {
    (void)flags;
    matbench_state *call = matbench_current;
    if (!call || call->opened) return fails(EMFILE);
    call->opened = file_of(call, name);
    call->opened_from = 0;
    return call->opened ? OPENED : fails(ENOENT);
}

int matbench_system_close(int number) {
    matbench_state *call = matbench_current;
    if (!call || number != OPENED || !call->opened) return fails(EBADF);
    call->opened = NULL;
    return 0;
}

/* Gives the next bytes of a file. */
static ssize_t read_on(const matbench_file *file, size_t *from, void *into, size_t room) {
    size_t count = file->length - *from;
    if (count > room) count = room;
    if (count) __builtin_memcpy(into, (const char *)file->bytes + *from, count);
    *from += count;
    return (ssize_t)count;
}

ssize_t matbench_system_read(int number, void *into, size_t room) {
    matbench_state *call = matbench_current;
    const matbench_file *standard = call && number == STANDARD_INPUT ? file_of(call, "-") : NULL;
    if (standard) return read_on(standard, &call->standard_from, into, room);
    if (!call || number != OPENED || !call->opened) return fails(EBADF);
    return read_on(call->opened, &call->opened_from, into, room);
}

/* Writes as many of the bytes as the buffer has room for. A full buffer is as a full disk. */
ssize_t matbench_system_write(int number, const void *bytes, size_t length) {
    matbench_state *call = matbench_current;
    matbench_buffer *to = !call ? NULL : number == STANDARD_OUTPUT ? call->output : number == STANDARD_ERROR ? call->note : NULL;
    if (!to) return fails(EBADF);
    size_t count = to->room - to->length;
    if (length && !count) return fails(ENOSPC);
    if (count > length) count = length;
    if (count) __builtin_memcpy(to->bytes + to->length, bytes, count);
    to->length += count;
    return (ssize_t)count;
}

/* The C library has this name for write too. */
ssize_t matbench_system___write(int number, const void *bytes, size_t length) {
    return matbench_system_write(number, bytes, length);
}

/* The program asks where a file is to be read from; here every file is as a pipe, which is read from front to end. */
long matbench_system_lseek(int number, long offset, int whence) {
    (void)number, (void)offset, (void)whence;
    return fails(ESPIPE);
}

/* The program has broken pipes ignored. Nothing here writes to a pipe, and the caller's signals stay as they are. */
void *matbench_system___sysv_signal(int signal, void *handler) {
    (void)signal, (void)handler;
    return NULL;
}
