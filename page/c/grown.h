/* Pages of a module's memory. */
#ifndef GROWN_H
#define GROWN_H

#include "heap.h"

enum { PAGE = 65536 };

static inline size pages_of(size bytes)
{
    return (bytes + PAGE - 1) / PAGE;
}

/* Whether the memory grew, by the answer to growing: the old number of pages, or -1. Of a module that was lowered to addresses of 32 bits it is a
   number of 32 bits, so its upper half says nothing. */
static inline int has_grown(size answer)
{
    return (unsigned)answer != ~0u;
}

#endif
