/* In front of the C library's: the allocation of the number REFUSED_ALLOCATION is refused, REFUSED_COUNT of them in all (1), and the file
   REFUSED_TO is then there. The bytes of each that is asked for are written to the file ASKED_TO, a line each; each read and each write of standard
   output to the file CALLED_TO, with what it gave. A read gives READ_MOST bytes at most, and the one of the number READ_FAILS fails; a write of
   standard output takes WRITE_MOST, and the one of the number WRITE_FAILS fails. Each file that is opened to be read or written, and each that gets
   another name, is told to OPENED_TO. */
#define _GNU_SOURCE
#include <dlfcn.h>
#include <errno.h>
#include <fcntl.h>
#include <stdarg.h>
#include <stdio.h>
#include <stdlib.h>
#include <unistd.h>

static long asked = 0, first = -1, last = -1;

static void tell(size_t size) {
    static int file = -2;
    char line[24];
    int at = sizeof line;
    if (file == -2) {
        const char *name = getenv("ASKED_TO");
        file = name ? open(name, O_CREAT | O_WRONLY | O_APPEND | O_CLOEXEC, 0600) : -1;
    }
    if (file < 0) return;
    for (line[--at] = '\n'; size > 0 || at == sizeof line - 1; size /= 10) line[--at] = '0' + size % 10;
    if (write(file, line + at, sizeof line - at) < 0) abort();
}

static int refused(size_t size) {
    tell(size);
    if (first < 0) {
        const char *number = getenv("REFUSED_ALLOCATION"), *count = getenv("REFUSED_COUNT");
        first = number ? atol(number) : 0;
        last = first + (count ? atol(count) : 1) - 1;
    }
    if (first == 0 || ++asked < first || asked > last) return 0;
    const char *name = getenv("REFUSED_TO");
    if (name && asked == first) open(name, O_CREAT | O_WRONLY | O_CLOEXEC, 0600);
    return 1;
}

void *malloc(size_t size) {
    static void *(*next)(size_t);
    if (!next) next = (void *(*)(size_t))dlsym(RTLD_NEXT, "malloc");
    return refused(size) ? NULL : next(size);
}

void *realloc(void *at, size_t size) {
    static void *(*next)(void *, size_t);
    if (!next) next = (void *(*)(void *, size_t))dlsym(RTLD_NEXT, "realloc");
    return refused(size) ? NULL : next(at, size);
}

void *aligned_alloc(size_t alignment, size_t size) {
    static void *(*next)(size_t, size_t);
    if (!next) next = (void *(*)(size_t, size_t))dlsym(RTLD_NEXT, "aligned_alloc");
    return refused(size) ? NULL : next(alignment, size);
}

int posix_memalign(void **to, size_t alignment, size_t size) {
    static int (*next)(void **, size_t, size_t);
    if (!next) next = (int (*)(void **, size_t, size_t))dlsym(RTLD_NEXT, "posix_memalign");
    return refused(size) ? 12 : next(to, alignment, size);
}

typedef ssize_t (*Write)(int, const void *, size_t);

static void called(const char *what, ssize_t gave) {
    static int file = -2;
    char line[40];
    if (file == -2) {
        const char *name = getenv("CALLED_TO");
        file = name ? open(name, O_CREAT | O_WRONLY | O_APPEND | O_CLOEXEC, 0600) : -1;
    }
    if (file >= 0 && ((Write)dlsym(RTLD_NEXT, "write"))(file, line, snprintf(line, sizeof line, "%s %zd\n", what, gave)) < 0) abort();
}

/* A number from the environment, or another where it is not given. */
static long given(const char *name, long other) {
    const char *number = getenv(name);
    return number ? atol(number) : other;
}

/* Whether a call of this number fails: errno is FAILS_AS then, or EIO. */
static int fails(const char *name, long number) {
    if (number != given(name, 0)) return 0;
    errno = given("FAILS_AS", EIO);
    return 1;
}

static size_t at_most(const char *name, size_t size) {
    size_t most = given(name, size);
    return most < size ? most : size;
}

ssize_t read(int from, void *to, size_t size) {
    static long reads = 0;
    ssize_t gave = -1;
    if (!fails("READ_FAILS", ++reads))
        gave = ((ssize_t (*)(int, void *, size_t))dlsym(RTLD_NEXT, "read"))(from, to, at_most("READ_MOST", size));
    called("read", gave);
    return gave;
}

ssize_t write(int to, const void *from, size_t size) {
    static long writes = 0;
    if (to != 1) return ((Write)dlsym(RTLD_NEXT, "write"))(to, from, size);
    ssize_t gave = -1;
    if (!fails("WRITE_FAILS", ++writes)) gave = ((Write)dlsym(RTLD_NEXT, "write"))(to, from, at_most("WRITE_MOST", size));
    called("write", gave);
    return gave;
}

typedef int (*Open)(const char *, int, int);

static void opened(const char *way, const char *name, const char *to) {
    static int file = -2;
    if (file == -2) {
        const char *log = getenv("OPENED_TO");
        file = log ? ((Open)dlsym(RTLD_NEXT, "open"))(log, O_CREAT | O_WRONLY | O_APPEND | O_CLOEXEC, 0600) : -1;
    }
    if (file >= 0) dprintf(file, "%s %s %s\n", way, name, to);
}

int open(const char *name, int flags, ...) {
    va_list more;
    va_start(more, flags);
    int mode = flags & (O_CREAT | O_TMPFILE) ? va_arg(more, int) : 0;
    va_end(more);
    opened(flags & O_CREAT ? "written" : "read", name, "-");
    return ((Open)dlsym(RTLD_NEXT, "open"))(name, flags, mode);
}

int rename(const char *name, const char *to) {
    opened("renamed", name, to);
    return ((int (*)(const char *, const char *))dlsym(RTLD_NEXT, "rename"))(name, to);
}
