/* The function of the static library within a WebAssembly module, for the module's host. */
#include "../matbench_line.h"

/* The module is made of code for x86-64, where a struct of this size is answered through a first pointer, which is answered too. */
matbench_ended *line_for_x86(matbench_ended *ended, const char *line, size_t line_length, const void *description, size_t description_length,
                             const void *certificate, size_t certificate_length, const void *witness, size_t witness_length, char *output,
                             size_t output_room, char *note, size_t note_room) __asm__("matbench_line");

__attribute__((export_name("matbench_line"))) void line_for_host(matbench_ended *ended, const char *line, size_t line_length,
                                                                 const void *description, size_t description_length, const void *certificate,
                                                                 size_t certificate_length, const void *witness, size_t witness_length,
                                                                 char *output, size_t output_room, char *note, size_t note_room) {
    line_for_x86(ended, line, line_length, description, description_length, certificate, certificate_length, witness, witness_length, output,
                 output_room, note, note_room);
}
