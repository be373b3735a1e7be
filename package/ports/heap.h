/* The heap of a port: blocks of the C library. An answer is two words in registers, as C for Linux
   returns them. */
#ifndef OF_LINUX
#define OF_LINUX
#endif
struct tried { size_t ok; void *block; };

static struct tried tried(void *block)
{
    static char nothing[16] __attribute__((aligned(16)));
    return (struct tried){block != 0, block ? block : nothing};
}

OF_LINUX struct tried rattle_alloc(size_t bytes, size_t alignment)
{
    (void)alignment;
    return tried(malloc(bytes ? bytes : 1));
}

OF_LINUX struct tried rattle_realloc(void *block, size_t kept, size_t bytes, size_t alignment)
{
    (void)kept, (void)alignment;
    return tried(realloc(block, bytes ? bytes : 1));
}

void rattle_dealloc(void *block) { free(block); }
