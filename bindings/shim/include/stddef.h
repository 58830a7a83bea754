/* All that the shim and the headers for C need of the C library's headers. build.sh compiles the shim with this one alone. */
#ifndef MATBENCH_STDDEF_H
#define MATBENCH_STDDEF_H

typedef __SIZE_TYPE__ size_t;
#define NULL ((void *)0)

#endif
