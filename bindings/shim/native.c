/* A call within a process of Linux. */
#include "call.h"

_Noreturn void abort(void);

/* What the processor has of one group of features, as bits of the four numbers of its instruction CPUID, and what a program may use. */
typedef struct {
    unsigned had[4], usable[4];
} features;

static void ask_processor(unsigned group, unsigned numbers[4]) {
    __asm__("cpuid" : "=a"(numbers[0]), "=b"(numbers[1]), "=c"(numbers[2]), "=d"(numbers[3]) : "a"(group), "c"(0));
}

/* The program asks whether the processor has x86-64-v2, which it is built for, and ends with a message where it has not. The C library answers
 * this since its version 2.33 alone. Of groups 0 and 2, which are 1 and 0x80000001 of CPUID, x86-64-v2 has these bits of the third number. They
 * may be used without a question to the operating system. */
const features *matbench_system___x86_get_cpuid_feature_leaf(unsigned group) {
    static PER_THREAD features asked;
    const unsigned wanted = group == 0 ? 0x982201 : group == 2 ? 1 : 0;
    if (wanted) ask_processor(group == 0 ? 1 : 0x80000001, asked.had);
    asked.usable[2] = wanted ? asked.had[2] & wanted : 0;
    return &asked;
}

/* The program ends here, in the thread that it began in, when its other threads have ended. */
_Noreturn void matbench_system__exit(int status) {
    if (!matbench_current) abort();
    matbench_current->status = status;
    longjmp(matbench_current->ended, 1);
}

/* (Nothing that this function keeps in its frame is changed after _setjmp.) */
static int run(matbench_state *call) {
    static char name[] = "matbench";
    char *argv[] = {name, NULL};
    if (!_setjmp(call->ended)) matbench_system_main(1, argv);
    return call->status;
}

int matbench_call(const char *const *words, const matbench_file *files, size_t file_count, matbench_buffer *output, matbench_buffer *note) {
    if (!matbench_is_call(words, files, file_count, output, note)) return MATBENCH_NO_CALL;
    matbench_state call = {.status = MATBENCH_NO_CALL};
    matbench_begin(&call, words, files, file_count, output, note);
    int status = run(&call);
    matbench_current = NULL;
    return status;
}
