/* A caller in C of the page's engine, on a file of what a client sends. `host FILE SEED` asks it part by part and compares with `talk` of all at once;
   `host FILE asks N` asks frame by frame, and those after the first three again and again until there were N; `host FILE refuse STEP` refuses each
   STEP-th allocation in turn. tests/page/natively runs all three, below valgrind too. */
#include <stddef.h>
#include <stdint.h>
#include <stdio.h>
#include <stdlib.h>
#include <string.h>

/* As Rattle lays it out. The allocator has no bytes. */
struct handle {
    void *at;
    unsigned char full;
};
_Static_assert(sizeof(struct handle) == 16 && offsetof(struct handle, full) == 8, "the handle is a pointer and a flag");

enum status { DONE, MEMORY, NO_FRAMES, NO_ROOM, CLOSED };
enum { OPENING = 3, MOST = 1 << 26, MARK = 0xa5 };

size_t talk(const unsigned char *input, size_t length, unsigned char *out, size_t size, size_t *count, size_t *told);
size_t engine_open(struct handle *handle);
size_t engine_ask(struct handle *handle, const unsigned char *messages, size_t length, unsigned char *out, size_t size, size_t *count);
void engine_close(struct handle *handle);

/* How many allocations are given before one is refused, or below 0 where none is. */
static long given = -1;
static long refusals;

void *__real_malloc(size_t bytes);
void *__real_realloc(void *block, size_t bytes);

static int refuses(void)
{
    if (given < 0 || given-- > 0)
        return 0;
    refusals++;
    return 1;
}

void *__wrap_malloc(size_t bytes) { return refuses() ? NULL : __real_malloc(bytes); }

void *__wrap_realloc(void *block, size_t bytes) { return refuses() ? NULL : __real_realloc(block, bytes); }

static void must_be(int holds, const char *what, long at)
{
    if (holds)
        return;
    fprintf(stderr, "tests/page/host: at %ld: %s\n", at, what);
    exit(1);
}

static unsigned char *input, *wanted, *out;
static size_t length, wanted_count, wanted_told, wanted_status, out_size;

/* Where the frame that begins here ends; the end of all where it is no whole one. */
static size_t end_of(size_t from)
{
    size_t bytes = 0, at = from + strlen("Content-Length: ");
    if (at >= length || memcmp(input + from, "Content-Length: ", at - from))
        return length;
    for (; at < length && input[at] >= '0' && input[at] <= '9'; at++)
        bytes = 10 * bytes + (input[at] - '0');
    if (at + 4 > length || memcmp(input + at, "\r\n\r\n", 4) || bytes > length)
        return length;
    at += 4 + bytes;
    return at < length ? at : length;
}

static void is_closed(struct handle *handle, long at)
{
    size_t count = 77;
    memset(out, MARK, 16);
    must_be(engine_ask(handle, input, length, out, 16, &count) == CLOSED && count == 0, "an engine that is not open answers", at);
    for (int k = 0; k < 16; k++)
        must_be(out[k] == MARK, "it changes the room", at);
    must_be(!handle->full, "it says that it is full", at);
}

/* The next answers are these. */
static size_t same(size_t done, size_t count, long at)
{
    must_be(done + count <= wanted_count && !memcmp(out, wanted + done, count), "another answer than that of a talk", at);
    return done + count;
}

static uint64_t state = 88172645463325252u;

static size_t drawn(size_t below)
{
    state ^= state << 13;
    state ^= state >> 7;
    state ^= state << 17;
    return state % below;
}

/* Some frames at a time, with more room or less than they need. */
static size_t part_by_part(struct handle *handle, size_t most)
{
    size_t at = 0, done = 0, status = DONE, count;
    for (long asks = 0; at < length && status == DONE; asks++) {
        size_t to = at, frames = drawn(most);
        for (size_t k = 0; k < frames; k++)
            to = end_of(to);
        size_t room = drawn(3) ? out_size - 1 : drawn(400);
        out[room] = MARK;
        status = engine_ask(handle, input + at, to - at, out, room, &count);
        at = to;
        must_be(out[room] == MARK, "more is written than there is room for", asks);
        if (status == NO_ROOM) {
            must_be(count > room, "there was room", asks);
            must_be(engine_ask(handle, NULL, 0, out, count - 1, &count) == NO_ROOM, "too little room is enough", asks);
            status = engine_ask(handle, NULL, 0, out, count, &count);
            must_be(status == DONE, "what waited is not given", asks);
        }
        if (count <= room || status == DONE)
            done = same(done, count, asks);
        else
            done += count;
    }
    must_be(done == wanted_count, "fewer answers than those of a talk", (long)done);
    return status;
}

static void compare(void)
{
    struct handle handle, moved;
    memset(&handle, 0, sizeof handle);
    is_closed(&handle, 0);
    engine_close(&handle);
    for (size_t most = 2; most < 12; most += 3) {
        must_be(engine_open(&handle) == DONE, "no engine is opened", 0);
        moved = handle; /* one copy alone is used */
        memset(&handle, 0, sizeof handle);
        is_closed(&handle, 1);
        size_t status = part_by_part(&moved, most);
        must_be(status == (wanted_status ? NO_FRAMES : DONE), "another end than that of a talk", (long)status);
        if (status != DONE)
            is_closed(&moved, 2);
        handle = moved;
    }
    engine_close(&handle);
    engine_close(&handle);
    is_closed(&handle, 3);
}

static void asks(long most)
{
    struct handle handle;
    size_t at = 0, again = 0, count;
    memset(&handle, 0, sizeof handle);
    must_be(engine_open(&handle) == DONE, "no engine is opened", 0);
    for (long k = 0; k < most; k++) {
        size_t to = end_of(at);
        must_be(engine_ask(&handle, input + at, to - at, out, out_size, &count) == DONE, "it is not answered", k);
        again = k + 1 == OPENING ? to : again;
        at = to < length ? to : again;
    }
    engine_close(&handle);
    is_closed(&handle, most);
    printf("%ld asks\n", most);
}

static void refused(long step)
{
    long closed = 0, tries = 0, before;
    struct handle handle;
    memset(&handle, 0, sizeof handle);
    do {
        size_t at = 0, status, count;
        before = refusals;
        given = step * tries;
        status = engine_open(&handle);
        while (status == DONE && at < length) {
            size_t to = end_of(at);
            status = engine_ask(&handle, input + at, to - at, out, out_size, &count);
            at = to;
        }
        given = -1;
        must_be(status == DONE || status == MEMORY, "memory is refused with another status", tries);
        if (status == MEMORY) {
            is_closed(&handle, tries);
            closed++;
        }
        /* opened anew, whatever is there: all is right again */
        must_be(engine_open(&handle) == DONE, "no engine is opened after a refusal", tries);
        must_be(part_by_part(&handle, 5) == DONE, "it is not answered after a refusal", tries);
        tries++;
    } while (refusals > before);
    engine_close(&handle);
    must_be(closed > 0, "no refusal closed the engine", refusals);
    printf("%ld allocations refused, %ld engines closed\n", refusals, closed);
}

int main(int count, char **words)
{
    FILE *file = count > 2 ? fopen(words[1], "rb") : NULL;
    must_be(file != NULL, "a file, and what is to be done", count);
    input = __real_malloc(MOST);
    length = fread(input, 1, MOST, file);
    fclose(file);
    out_size = MOST;
    wanted = __real_malloc(out_size);
    out = __real_malloc(out_size);
    wanted_status = talk(input, length, wanted, out_size, &wanted_count, &wanted_told);
    must_be(wanted_status == 0 || wanted_status == 2, "a talk has another status", (long)wanted_status);
    if (!strcmp(words[2], "asks"))
        asks(atol(words[3]));
    else if (!strcmp(words[2], "refuse"))
        refused(atol(words[3]));
    else {
        state += strtoul(words[2], NULL, 10) * 2654435761u;
        compare();
    }
    free(input);
    free(wanted);
    free(out);
}
