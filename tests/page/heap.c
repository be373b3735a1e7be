/* The heap against a model, on random calls: of each block in use where it is, how long, and what it holds. The memory below it is an array that grows
   as long as it is allowed to. Words: seed, calls, and the most bytes of the memory. */
#include <stdio.h>
#include <stdlib.h>
#include <string.h>

#include "../../page/c/heap.c"
#include "../../page/c/grown.h"

enum { MOST = 1 << 26, LIVE = 4000 };

static unsigned char memory[MOST] __attribute__((aligned(16)));
static size ended, allowed;
static unsigned long refused, moved, reused, grown;

unsigned char *memory_begin(void) { return memory; }
unsigned char *memory_end(void) { return memory + ended; }
int memory_grow(size bytes)
{
    size more = pages_of(bytes) * PAGE;
    if (more > allowed - ended) {
        refused++;
        return 0;
    }
    ended += more;
    grown++;
    return 1;
}

struct live {
    unsigned char *block;
    size bytes;
    unsigned mark;
};

static struct live live[LIVE];
static unsigned count, marks;
static unsigned long state;

static unsigned long drawn(unsigned long below)
{
    state ^= state << 13, state ^= state >> 7, state ^= state << 17;
    return state % below;
}

static void fail(const char *what)
{
    printf("heap: %s\n", what);
    exit(1);
}

static unsigned char byte_of(unsigned mark, size k) { return (unsigned char)(mark * 31 + k * 7 + (k >> 8)); }

static void fill(struct live *one, size from)
{
    for (size k = from; k < one->bytes; k++)
        one->block[k] = byte_of(one->mark, k);
}

static void look(const struct live *one, size bytes)
{
    for (size k = 0; k < bytes; k++)
        if (one->block[k] != byte_of(one->mark, k))
            fail("a block does not hold what was put there");
}

/* A block stands in the memory, where none of the others does. */
static void stands(const struct live *one)
{
    if ((size)one->block % 16 || one->block < memory || one->block + one->bytes > memory + ended)
        fail("a block is not where it may be");
    for (unsigned k = 0; k < count; k++)
        if (&live[k] != one && one->block < live[k].block + live[k].bytes && live[k].block < one->block + one->bytes)
            fail("two blocks meet");
}

/* The heads lead from the beginning to the top; no two free neighbours; the lists have the free blocks and no others; all in use are the model's. */
static void walk(void)
{
    size before = 0;
    unsigned used = 0, idle = 0, listed = 0;
    int was_idle = 0;
    for (unsigned char *p = memory; top && p != top; p += size_of((struct block *)p)) {
        struct block *b = (struct block *)p;
        if (p > top || size_of(b) < LEAST || size_of(b) % 16 || b->before != before)
            fail("a head is wrong");
        if (!in_use(b) && was_idle)
            fail("two free blocks stand side by side");
        was_idle = !in_use(b);
        idle += was_idle;
        used += !was_idle;
        before = size_of(b);
    }
    if (top_before != before || was_idle)
        fail("the last block is wrong");
    for (unsigned k = 0; k < CLASSES; k++)
        for (struct block *b = lists[k], *last = 0; b; last = b, b = b->next, listed++)
            if (in_use(b) || class_of(b->all) != k || b->last != last)
                fail("a list is wrong");
    if (listed != idle || used != count)
        fail("blocks are lost");
}

static size some_bytes(void)
{
    size bits = drawn(100) < 3 ? 22 : drawn(100) < 20 ? 16 : 9;
    return drawn(50) ? drawn((size)1 << drawn(bits + 1)) : (size)1 << (30 + drawn(33));
}

static void call(void)
{
    unsigned long what = drawn(10);
    if (what < 4 && count < LIVE) {
        struct live *one = &live[count];
        one->bytes = some_bytes();
        struct tried tried = rattle_alloc(one->bytes, 16);
        if (!tried.block)
            fail("an answer is null");
        if (!tried.ok)
            return;
        one->block = tried.block;
        one->mark = ++marks;
        stands(one);
        count++;
        fill(one, 0);
    } else if (what < 7 && count) {
        struct live *one = &live[drawn(count)];
        size bytes = drawn(3) ? some_bytes() : one->bytes * 2, kept = one->bytes < bytes ? one->bytes : bytes;
        struct tried tried = rattle_realloc(one->block, kept, bytes, 16);
        if (!tried.ok) {
            look(one, one->bytes);
            return;
        }
        if (tried.block == one->block)
            reused++;
        else
            moved++;
        one->block = tried.block;
        one->bytes = bytes;
        stands(one);
        look(one, kept);
        fill(one, kept);
    } else if (count) {
        struct live *one = &live[drawn(count)];
        look(one, one->bytes);
        if (drawn(2))
            rattle_dealloc(one->block);
        else
            leave(one->block);
        *one = live[--count];
    }
}

int main(int words, char **word)
{
    if (words != 4)
        return 2;
    state = strtoul(word[1], 0, 10) * 2654435761 + 88172645463325252;
    unsigned long calls = strtoul(word[2], 0, 10);
    allowed = strtoul(word[3], 0, 10);
    if (allowed > MOST)
        return 2;
    for (unsigned long k = 1; k <= calls; k++) {
        call();
        walk();
        if (k % 5000 == 0) { /* all is given back: then the whole memory is one room */
            while (count) {
                look(&live[count - 1], live[count - 1].bytes);
                leave(live[--count].block);
            }
            if (top != memory || top_before || room(allowed - HEAD) != memory + HEAD || room(0))
                fail("what was given back is not whole");
            leave(memory + HEAD);
            memset(memory, 0xaa, ended);
        }
    }
    printf("%lu calls, %lu blocks moved, %lu grew or shrank in place, memory grew %lu times and was refused %lu times: as the model says\n", calls,
           moved, reused, grown, refused);
    return !(moved && reused && grown && refused);
}
