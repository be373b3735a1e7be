/* The functions of C that the program calls. For its object file on Linux these are those that the
   C library lacks. With -DMODULE they are all that its module calls, in C of wasm2c, on any POSIX
   system: names and numbers are Linux's inside, and the system's outside. */
#define _GNU_SOURCE
#define _DARWIN_C_SOURCE
#include <errno.h>
#include <stdint.h>
#include <stdlib.h>
#include <string.h>

extern char **environ;
static uint64_t count;
static char **words;

#ifdef MODULE
#include "module.h"
#include <fcntl.h>
#include <limits.h>
#include <signal.h>
#include <stdio.h>
#include <sys/file.h>
#include <sys/stat.h>
#include <unistd.h>
struct Z_env_instance_t { Z_module_instance_t *module; };
typedef uint64_t place;
#define OWN struct Z_env_instance_t *own
#define CALL(type, name, ...) type Z_envZ_##name(OWN, __VA_ARGS__)
#define AT(p) ((void *)(Z_moduleZ_memory(own->module)->data + (p)))
#else
typedef void *place;
#define CALL(type, name, ...) type name(__VA_ARGS__)
#define AT(p) p
#endif

/* A text's length, -1 if there is none, -2 if it does not fit; then the room is full. */
static int64_t put(const char *text, char *to, uint64_t room)
{
    if (!text)
        return -1;
    size_t length = strlen(text);
    memcpy(to, text, length < room ? length : room);
    return length <= room ? (int64_t)length : -2;
}

CALL(uint64_t, rattle_arg, uint64_t i, place to, uint64_t room)
{
    return (uint64_t)put(i == 0 ? "mixrev" : i < count ? words[i] : 0, AT(to), room);
}

CALL(uint64_t, rattle_env, place name, place to, uint64_t room)
{
    return (uint64_t)put(getenv(AT(name)), AT(to), room);
}

CALL(uint64_t, rattle_env_at, uint64_t i, place to, uint64_t room)
{
    char **entry = environ;
    while (entry && *entry && i--)
        entry++;
    return (uint64_t)put(entry ? *entry : 0, AT(to), room);
}

#ifndef MODULE
#include "heap.h"

int rattle_errno(void) { return errno; }
void rattle_set_errno(int error) { errno = error; }

/* The object file has C's main; glibc gives the words to what runs before it. */
static void keep(int c, char **w) { count = (uint64_t)c, words = w; }
__attribute__((section(".init_array"), used)) static void (*const kept)(int, char **) = keep;

#else
/* The errors and flags whose numbers are not Linux's everywhere. */
static const int errors[][2] = {{EAGAIN, 11}, {ENAMETOOLONG, 36}, {ENOTEMPTY, 39}, {ELOOP, 40}};
static const int flags[][2] = {{O_WRONLY, 1}, {O_RDWR, 2}, {O_CREAT, 0100}, {O_EXCL, 0200}, {O_TRUNC, 01000}, {O_APPEND, 02000}};
enum { NO_FOLLOW = 0x100 };

#ifdef __TINYC__ /* which lacks these */
int __builtin_popcountll(unsigned long long x) { int n = 0; for (; x; x &= x - 1) n++; return n; }
int __builtin_ctzll(unsigned long long x) { return __builtin_popcountll((x & -x) - 1); }
int __builtin_clzll(unsigned long long x) { int n = 0; for (; !(x >> 63); x <<= 1) n++; return n; }
int __builtin_popcount(unsigned x) { return __builtin_popcountll(x); }
int __builtin_ctz(unsigned x) { return __builtin_ctzll(x); }
int __builtin_clz(unsigned x) { return __builtin_clzll(x) - 32; }
#endif

static int translated(int number, int from)
{
    for (size_t k = 0; k < sizeof errors / sizeof *errors; k++)
        if (errors[k][from] == number)
            return errors[k][!from];
    return number;
}

uint32_t Z_envZ_rattle_errno(OWN) { (void)own; return (uint32_t)translated(errno, 0); }
CALL(void, rattle_set_errno, uint32_t error) { (void)own, errno = translated((int)error, 1); }

CALL(uint32_t, open, place path, uint32_t how, place mode)
{
    int here = 0;
    (void)mode;
    for (size_t k = 0; k < sizeof flags / sizeof *flags; k++)
        if (how & (uint32_t)flags[k][1])
            here |= flags[k][0];
    return (uint32_t)open(AT(path), here, 0666);
}

CALL(uint32_t, statx, uint32_t fd, place path, uint32_t how, uint32_t mask, place to)
{
    struct stat is;
    const char *name = AT(path);
    unsigned char *about = AT(to);
    uint64_t inode, size;
    (void)mask;
    if (*name ? how & NO_FOLLOW ? lstat(name, &is) : stat(name, &is) : fstat((int)fd, &is))
        return (uint32_t)-1;
    memset(about, 0, 256);
    inode = is.st_ino, size = (uint64_t)is.st_size;
    memcpy(about, &(uint32_t){0x7ff}, 4), memcpy(about + 16, &(uint32_t){(uint32_t)is.st_nlink}, 4);
    memcpy(about + 28, &(uint16_t){(uint16_t)is.st_mode}, 2);
    memcpy(about + 32, &inode, 8), memcpy(about + 40, &size, 8);
    memcpy(about + 140, &(uint32_t){(uint32_t)is.st_dev}, 4);
    return 0;
}

CALL(uint64_t, realpath, place path, place to)
{
    char room[PATH_MAX + 1];
    if (!realpath(AT(path), room))
        return 0;
    if (strlen(room) > 4095)
        return errno = ENAMETOOLONG, (uint64_t)0;
    strcpy(AT(to), room);
    return to;
}

CALL(uint32_t, __xpg_strerror_r, uint32_t error, place to, uint64_t room)
{
    snprintf(AT(to), room, "%s", strerror(translated((int)error, 1)));
    return 0;
}

CALL(uint32_t, close, uint32_t fd) { (void)own; return (uint32_t)close((int)fd); }
CALL(uint64_t, read, uint32_t fd, place to, uint64_t n) { return (uint64_t)read((int)fd, AT(to), n); }
CALL(uint64_t, write, uint32_t fd, place from, uint64_t n) { return (uint64_t)write((int)fd, AT(from), n); }
CALL(uint64_t, lseek, uint32_t fd, uint64_t by, uint32_t from) { (void)own; return (uint64_t)lseek((int)fd, (off_t)by, (int)from); }
CALL(uint32_t, isatty, uint32_t fd) { (void)own; return (uint32_t)isatty((int)fd); }
CALL(uint32_t, rename, place from, place to) { return (uint32_t)rename(AT(from), AT(to)); }
CALL(uint32_t, unlink, place path) { return (uint32_t)unlink(AT(path)); }
CALL(uint32_t, ftruncate, uint32_t fd, uint64_t n) { (void)own; return (uint32_t)ftruncate((int)fd, (off_t)n); }
CALL(uint32_t, fchmod, uint32_t fd, uint32_t mode) { (void)own; return (uint32_t)fchmod((int)fd, (mode_t)mode); }
CALL(uint32_t, fsync, uint32_t fd) { (void)own; return (uint32_t)fsync((int)fd); }
CALL(uint32_t, fdatasync, uint32_t fd) { (void)own; return (uint32_t)fsync((int)fd); }
CALL(uint32_t, flock, uint32_t fd, uint32_t how) { (void)own; return (uint32_t)flock((int)fd, (int)how); }

CALL(uint64_t, __sysv_signal, uint32_t number, uint64_t how)
{
    (void)own;
    signal((int)number, how == 1 ? SIG_IGN : SIG_DFL);
    return 0;
}

int main(int c, char **w)
{
    static Z_module_instance_t module;
    struct Z_env_instance_t host = {&module};
    count = (uint64_t)c, words = w;
    wasm_rt_init();
    Z_module_init_module();
    Z_module_instantiate(&module, &host);
    return (int)Z_moduleZ_mixrev_main(&module);
}
#endif
