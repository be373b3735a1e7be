/* In the engine's place: it gives back what comes in, and a first byte asks for something that goes wrong. */
#include "../../page/c/heap.h"

static size deep(size n)
{
    volatile size local[100];
    local[n % 100] = n;
    return n ? deep(n + 1) + local[(n + 1) % 100] : 0;
}

/* What goes wrong at a first byte: a trap, a stack that is used up, a place beyond the memory, all the memory, in pieces none of which is given back. */
static void goes_wrong(unsigned char first)
{
    if (first == 't')
        __builtin_trap();
    if (first == 's')
        deep(1);
    if (first == 'o')
        (void)*(volatile size *)((size)1 << 40 | 0x7ffffff0);
    while (first == 'm' && room(1 << 20))
        ;
}

size talk(const unsigned char *input, size length, unsigned char *out, size wide, size *count, size *told)
{
    unsigned char first = length ? input[0] : 0;
    *count = length;
    *told = 0;
    goes_wrong(first);
    if (first == 'm')
        return 2;
    if (first == '3') /* more than it was given room for, three times over */
        *count = 3 * length;
    if (first == 'e')
        *told = 1;
    if (*count + *told > wide)
        return 3;
    for (size k = 0; k < *count + *told; k++)
        out[k] = input[k % length];
    return first == 'e' ? 2 : 0;
}

/* A session: what was sent and not given yet. */
struct session {
    size count;
    unsigned char *waits;
};

struct handle {
    struct session *at;
    unsigned char full;
};

void engine_close(struct handle *handle)
{
    if (handle->full && handle->at->waits)
        leave(handle->at->waits);
    if (handle->full)
        leave(handle->at);
    handle->full = 0;
}

size engine_open(struct handle *handle)
{
    engine_close(handle);
    handle->at = room(sizeof *handle->at);
    if (!handle->at)
        return 1;
    *handle->at = (struct session){0, 0};
    handle->full = 1;
    return 0;
}

/* The messages come back behind what waits; three times over where the first byte says so, and with '1' and '2' the session is broken off. */
size engine_ask(struct handle *handle, const unsigned char *messages, size length, unsigned char *out, size wide, size *count)
{
    unsigned char first = length ? messages[0] : 0;
    size more = first == '3' ? 3 * length : length;
    *count = 0;
    if (!handle->full)
        return 4;
    goes_wrong(first);
    struct session *session = handle->at;
    unsigned char *waits = room(session->count + more);
    if (first == 'm' || first == '1' || first == '2' || !waits) {
        if (waits)
            leave(waits);
        engine_close(handle);
        return first == '2' ? 2 : 1;
    }
    for (size k = 0; k < session->count; k++)
        waits[k] = session->waits[k];
    for (size k = 0; k < more; k++)
        waits[session->count + k] = messages[k % length];
    if (session->waits)
        leave(session->waits);
    session->waits = waits;
    session->count += more;
    *count = session->count;
    if (*count > wide)
        return 3;
    for (size k = 0; k < *count; k++)
        out[k] = waits[k];
    session->count = 0;
    return 0;
}
