/* The heap: blocks one after the other from the beginning of the memory up to `top`, each with a head. A free block stands in the list of its
   class, and no two free blocks, nor a free block and what is above `top`, stand side by side. */
#include "heap.h"

enum { HEAD = 16, LEAST = 32, EXACT = 64, CLASSES = EXACT + 48 };

struct block {
    size before; /* the size of the block before this one; 0 of the first */
    size all;    /* the size of this one with its head, and 1 more where it is in use */
    struct block *next, *last; /* of a free block: its neighbours in the list of its class */
};

static struct block *lists[CLASSES];
static unsigned char *top;
static size top_before; /* the size of the block that ends at `top` */

static size size_of(const struct block *b) { return b->all & ~(size)1; }
static int in_use(const struct block *b) { return b->all & 1; }
static struct block *at(const void *place, offset by) { return (struct block *)((unsigned char *)place + by); }

/* Small blocks have a class for each size, larger ones for each power of two. */
static unsigned class_of(size all)
{
    return all < 16 * EXACT ? (unsigned)(all / 16) : EXACT + 63 - 10 - (unsigned)__builtin_clzll(all);
}

static void put(struct block *b, size all)
{
    struct block **list = &lists[class_of(all)];
    b->all = all;
    b->last = 0;
    b->next = *list;
    if (*list)
        (*list)->last = b;
    *list = b;
}

static void take(struct block *b)
{
    if (b->last)
        b->last->next = b->next;
    else
        lists[class_of(b->all)] = b->next;
    if (b->next)
        b->next->last = b->last;
}

/* Tells what stands after a block how long that is. */
static void tell(struct block *b, size all)
{
    if ((unsigned char *)b + all == top)
        top_before = all;
    else
        at(b, all)->before = all;
}

/* A block that is in no list becomes free, together with its free neighbours. */
static void release(struct block *b)
{
    size all = size_of(b);
    if (b->before && !in_use(at(b, -(offset)b->before))) {
        b = at(b, -(offset)b->before);
        take(b);
        all += b->all;
    }
    if ((unsigned char *)b + all != top && !in_use(at(b, all))) {
        take(at(b, all));
        all += size_of(at(b, all));
    }
    if ((unsigned char *)b + all == top) {
        top = (unsigned char *)b;
        top_before = b->before;
        return;
    }
    put(b, all);
    tell(b, all);
}

/* A block in use keeps so much of its size; the rest, where it can be a block, is released. */
static void cut(struct block *b, size all, size wanted)
{
    if (all - wanted >= LEAST) {
        struct block *rest = at(b, wanted);
        rest->before = wanted;
        rest->all = all - wanted;
        b->all = wanted | 1;
        tell(rest, all - wanted);
        release(rest);
    } else {
        b->all = all | 1;
        tell(b, all);
    }
}

/* Whether so many bytes stand above `top`, or could be had. */
static int has_above(size bytes)
{
    if (!top)
        top = memory_begin();
    size here = (size)(memory_end() - top);
    if (bytes <= here)
        return 1;
    return memory_grow(bytes - here + (size)(top - memory_begin()) / 8) || memory_grow(bytes - here);
}

/* The size of a block for so many bytes; 0 where there is none so large. */
static size whole(size bytes)
{
    if (bytes > (size)1 << 40)
        return 0;
    return bytes <= LEAST - HEAD ? LEAST : (bytes + HEAD + 15) & ~(size)15;
}

void *room(size bytes)
{
    size all = whole(bytes);
    if (!all)
        return 0;
    for (unsigned k = class_of(all); k < CLASSES; k++)
        for (struct block *b = lists[k]; b; b = b->next)
            if (b->all >= all) {
                take(b);
                cut(b, b->all, all);
                return at(b, HEAD);
            }
    if (!has_above(all))
        return 0;
    struct block *b = (struct block *)top;
    b->before = top_before;
    b->all = all | 1;
    top += all;
    top_before = all;
    return at(b, HEAD);
}

void leave(void *block)
{
    release(at(block, -HEAD));
}

static struct tried answer(void *block)
{
    static unsigned char nothing[16] __attribute__((aligned(16)));
    return (struct tried){block != 0, block ? block : nothing};
}

struct tried rattle_alloc(size bytes, size alignment)
{
    (void)alignment;
    return answer(room(bytes));
}

void rattle_dealloc(void *block)
{
    leave(block);
}

/* In its place where it can be, into a free block after it or above `top`; else moved. */
struct tried rattle_realloc(void *block, size kept, size bytes, size alignment)
{
    struct block *b = at(block, -HEAD);
    size all = size_of(b), wanted = whole(bytes);
    (void)kept, (void)alignment;
    if (!wanted)
        return answer(0);
    if (wanted > all && (unsigned char *)b + all == top && has_above(wanted - all)) {
        top += wanted - all;
        all = top_before = wanted;
    } else if (wanted > all && (unsigned char *)b + all != top) {
        struct block *after = at(b, all);
        if (!in_use(after) && all + after->all >= wanted) {
            take(after);
            all += after->all;
        }
    }
    if (wanted <= all) {
        cut(b, all, wanted);
        return answer(block);
    }
    void *moved = room(bytes);
    if (!moved)
        return answer(0);
    __builtin_memcpy(moved, block, all - HEAD);
    leave(block);
    return answer(moved);
}
