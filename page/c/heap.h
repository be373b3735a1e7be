/* The heap of the page's engine, and where its memory comes from. */
#ifndef HEAP_H
#define HEAP_H

/* (no header of a C library is there for WebAssembly) */
typedef __UINT64_TYPE__ size;
typedef __INT64_TYPE__ offset;

/* Whether a block could be had, and the block. Where it could not, the block is some address. */
struct tried {
    size ok;
    void *block;
};

/* What the engine's Rattle code calls. Alignments are at most 16, the alignment of each block. */
struct tried rattle_alloc(size bytes, size alignment);
struct tried rattle_realloc(void *block, size kept, size bytes, size alignment);
void rattle_dealloc(void *block);

/* What the page calls: room for bytes, or null; and room given back. */
void *room(size bytes);
void leave(void *block);

/* What is supplied below the heap: the address where it begins, of alignment 16, where its memory ends, and whether that was
   moved on by so many bytes or more; refused, nothing is changed. */
unsigned char *memory_begin(void);
unsigned char *memory_end(void);
int memory_grow(size bytes);

#endif
