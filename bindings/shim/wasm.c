/* A call within a WebAssembly module, where no C library is linked: what the program calls besides the heap. There are no threads. An instance
 * of the module serves one call. */
#include "call.h"

int errno;

int rattle_errno(void) {
    return errno;
}

void rattle_set_errno(int error) {
    errno = error;
}

/* No thread can be started: who asks for one does its work himself. */
enum { EAGAIN = 11, ESRCH = 3 };
int pthread_attr_init(void *attributes) { return EAGAIN; }
int pthread_attr_destroy(void *attributes) { return 0; }
int pthread_attr_setguardsize(void *attributes, size_t size) { return EAGAIN; }
int pthread_create(void *thread, const void *attributes, void *start, void *argument) { return EAGAIN; }
int pthread_detach(void *thread) { return ESRCH; }
int pthread_join(void *thread, void **result) { return ESRCH; }
void *pthread_self(void) { return NULL; }

/* The program asks whether the processor has what its code for x86-64 needs; this code needs nothing of it. */
void *__x86_get_cpuid_feature_leaf(int leaf) {
    static unsigned features[16] = {~0u, ~0u, ~0u, ~0u, ~0u, ~0u, ~0u, ~0u, ~0u, ~0u, ~0u, ~0u, ~0u, ~0u, ~0u, ~0u};
    return features;
}

_Noreturn void abort(void) {
    __builtin_trap();
}

/* The host ends the call here: it throws, and catches what it threw. */
__attribute__((import_module("host"), import_name("end"))) _Noreturn void host_end(int status);

_Noreturn void matbench_system__exit(int status) {
    host_end(status);
}

__attribute__((export_name("matbench_call"))) int matbench_call(const char *const *words, const matbench_file *files, size_t file_count,
                                                                matbench_buffer *output, matbench_buffer *note) {
    if (!matbench_is_call(words, files, file_count, output, note)) return MATBENCH_NO_CALL;
    static matbench_state call;
    matbench_begin(&call, words, files, file_count, output, note);
    return matbench_system_main(0, NULL);
}
