/* The heap of a WebAssembly module, in which no C library is linked, and how its host asks for memory. */
#include <stddef.h>

typedef unsigned char byte;

/* Blocks have one of 256 sizes. A block that is freed is kept in the list of its size, and a new one is cut from the end of the memory. */
typedef struct block {
    size_t kind;
    struct block *next;
} block;

enum { PAGE = 65536, FEWEST_PAGES = 64 };
static const size_t LARGEST_BLOCK = (size_t)1 << 34;

extern byte __heap_base;
static block *freed[256];
static size_t cut_from, memory_end;
static size_t memory_limit = (size_t)1 << 32;

/* Sizes rise in steps of 16 up to 1024, and in four steps to each power of two beyond. */
static size_t kind_of(size_t size) {
    if (size <= 1024) return size ? (size - 1) / 16 : 0;
    size_t power = 63 - (size_t)__builtin_clzl(size - 1);
    return 64 + (power - 10) * 4 + (((size - 1) >> (power - 2)) & 3);
}

static size_t size_of(size_t kind) {
    if (kind < 64) return (kind + 1) * 16;
    size_t power = (kind - 64) / 4 + 10;
    return (5 + (kind - 64) % 4) << (power - 2);
}

/* Makes the memory reach so many bytes beyond cut_from, and answers whether it does. */
static int reach(size_t size) {
    if (!cut_from) {
        cut_from = ((size_t)&__heap_base + 15) & ~(size_t)15;
        memory_end = __builtin_wasm_memory_size(0) * PAGE;
    }
    if (size <= memory_end - cut_from) return 1;
    if (size > memory_limit || cut_from > memory_limit - size) return 0;
    size_t pages = (size - (memory_end - cut_from) + PAGE - 1) / PAGE;
    size_t added = pages < FEWEST_PAGES ? FEWEST_PAGES : pages;
    if (__builtin_wasm_memory_grow(0, added) == (size_t)-1) {
        added = pages;
        if (__builtin_wasm_memory_grow(0, added) == (size_t)-1) return 0;
    }
    memory_end += added * PAGE;
    return 1;
}

void *malloc(size_t size) {
    if (size > LARGEST_BLOCK) return NULL;
    size_t kind = kind_of(size);
    block *it = freed[kind];
    if (it) {
        freed[kind] = it->next;
        return it + 1;
    }
    size_t whole = size_of(kind) + sizeof(block);
    if (!reach(whole)) return NULL;
    it = (block *)cut_from;
    cut_from += whole;
    it->kind = kind;
    return it + 1;
}

void free(void *bytes) {
    if (!bytes) return;
    block *it = (block *)bytes - 1;
    it->next = freed[it->kind];
    freed[it->kind] = it;
}

/* What the kit's C files answer: whether there is memory, and where. */
typedef struct {
    size_t ok;
    void *bytes;
} tried;

static byte nothing[16] __attribute__((aligned(16)));

tried rattle_alloc(size_t size, size_t alignment) {
    void *bytes = malloc(size ? size : alignment);
    return (tried){bytes != NULL, bytes ? bytes : nothing};
}

tried rattle_realloc(void *old, size_t kept, size_t size, size_t alignment) {
    if (size <= size_of(((block *)old - 1)->kind)) return (tried){1, old};
    tried made = rattle_alloc(size, alignment);
    if (!made.ok) return made;
    __builtin_memcpy(made.bytes, old, kept);
    free(old);
    return made;
}

void rattle_dealloc(void *bytes) {
    free(bytes);
}

/* Bytes for the host to fill with a call, or null. */
__attribute__((export_name("allocate"))) void *allocate(size_t size) {
    return malloc(size ? size : 1);
}

/* The memory does not grow by more than FEWEST_PAGES beyond so many bytes, which are 2^32 where the host does not say. */
__attribute__((export_name("limit_memory"))) void limit_memory(size_t bytes) {
    memory_limit = bytes;
}
