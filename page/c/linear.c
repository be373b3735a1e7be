/* The memory of a module of WebAssembly, below the heap. */
#include "grown.h"

extern unsigned char __heap_base; /* where the linker's own things end */

unsigned char *memory_begin(void)
{
    return (unsigned char *)(((size)&__heap_base + 15) & ~(size)15);
}

unsigned char *memory_end(void)
{
    return (unsigned char *)(__builtin_wasm_memory_size(0) * PAGE);
}

int memory_grow(size bytes)
{
    return has_grown(__builtin_wasm_memory_grow(0, pages_of(bytes)));
}
