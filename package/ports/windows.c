/* The functions of C that the program calls, for Windows. Names are UTF-8 with / inside, and UTF-16
   outside; bytes pass as they are. Errors have Linux's numbers, which are msvcrt's but for two. */
#include <windows.h>
#include <errno.h>
#include <fcntl.h>
#include <io.h>
#include <stdint.h>
#include <stdio.h>
#include <stdlib.h>
#include <string.h>
#include <sys/stat.h>
#include <wchar.h>

enum { LONGEST = 4096, NO_FOLLOW = 0x100, NAMETOOLONG = 36, NOTEMPTY = 39, LINUX_PIPE = 0010000, LINUX_CHAR = 0020000 };
static size_t count;
static wchar_t **words;

#define OF_LINUX __attribute__((sysv_abi))
#include "heap.h"

int rattle_errno(void) { return errno == ENAMETOOLONG ? NAMETOOLONG : errno == ENOTEMPTY ? NOTEMPTY : errno; }
void rattle_set_errno(int error) { errno = error == NAMETOOLONG ? ENAMETOOLONG : error == NOTEMPTY ? ENOTEMPTY : error; }

static void slashes(char *name)
{
    while ((name = strchr(name, '\\')))
        *name = '/';
}

/* A text's length, -1 if there is none, -2 if it does not fit; then the room is full. */
static int64_t put(const wchar_t *text, char *to, size_t room, int is_word)
{
    if (!text)
        return -1;
    int length = WideCharToMultiByte(CP_UTF8, WC_ERR_INVALID_CHARS, text, -1, 0, 0, 0, 0) - 1;
    if (length < 0)
        return *to = (char)0xff, 1; /* half a character is no text */
    char *all = malloc((size_t)length + 1);
    if (!all)
        return -1;
    WideCharToMultiByte(CP_UTF8, 0, text, -1, all, length + 1, 0, 0);
    if (is_word)
        slashes(all);
    memcpy(to, all, (size_t)length < room ? (size_t)length : room);
    free(all);
    return (size_t)length <= room ? length : -2;
}

static const wchar_t *wide(const char *name, wchar_t *to)
{
    if (!strcmp(name, "/dev/null"))
        name = "NUL";
    if (!MultiByteToWideChar(CP_UTF8, MB_ERR_INVALID_CHARS, name, -1, to, LONGEST))
        *to = 0;
    return to;
}

int64_t rattle_arg(size_t i, char *to, size_t room) { return put(i == 0 ? L"mixrev" : i < count ? words[i] : 0, to, room, 1); }

int64_t rattle_env(const char *name, char *to, size_t room) { return put(_wgetenv(wide(name, (wchar_t[LONGEST]){0})), to, room, 0); }

int64_t rattle_env_at(size_t i, char *to, size_t room)
{
    wchar_t **entry = _wenviron;
    while (entry && *entry && i--)
        entry++;
    return put(entry ? *entry : 0, to, room, 0);
}

static HANDLE handle(int fd) { return (HANDLE)_get_osfhandle(fd); }

int l_isatty(int fd)
{
    DWORD mode;
    if (GetConsoleMode(handle(fd), &mode))
        return 1;
    return errno = ENOTTY, 0;
}

static int64_t failed(void)
{
    switch (GetLastError()) {
    case ERROR_BROKEN_PIPE: case ERROR_NO_DATA: errno = EPIPE; break;
    case ERROR_DISK_FULL: case ERROR_HANDLE_DISK_FULL: errno = ENOSPC; break;
    case ERROR_ACCESS_DENIED: case ERROR_SHARING_VIOLATION: case ERROR_LOCK_VIOLATION: errno = EACCES; break;
    case ERROR_FILE_NOT_FOUND: case ERROR_PATH_NOT_FOUND: errno = ENOENT; break;
    case ERROR_INVALID_HANDLE: errno = EBADF; break;
    case ERROR_INVALID_FUNCTION: errno = EISDIR; break;
    default: errno = EIO;
    }
    return -1;
}

/* At a console Ctrl-C ends no read: the line is asked for again. */
int64_t l_read(int fd, void *to, size_t n)
{
    DWORD got;
    do
        SetLastError(0);
    while (ReadFile(handle(fd), to, n < 1 << 30 ? (DWORD)n : 1 << 30, &got, 0) && !got && GetLastError() == ERROR_OPERATION_ABORTED);
    switch (GetLastError()) {
    case 0: return got;
    case ERROR_BROKEN_PIPE: case ERROR_HANDLE_EOF: return 0;
    default: return failed();
    }
}

int64_t l_write(int fd, const void *from, size_t n)
{
    DWORD put, most = l_isatty(fd) ? 16384 : 1 << 30;
    return WriteFile(handle(fd), from, n < most ? (DWORD)n : most, &put, 0) ? put : failed();
}

int64_t l_lseek(int fd, int64_t by, int from)
{
    if (GetFileType(handle(fd)) != FILE_TYPE_DISK)
        return errno = ESPIPE, -1;
    return _lseeki64(fd, by, from);
}

static int is(const wchar_t *name, int folder)
{
    DWORD kind = GetFileAttributesW(name);
    return kind != INVALID_FILE_ATTRIBUTES && !(kind & FILE_ATTRIBUTE_DIRECTORY) == !folder;
}

/* Why a name was not opened, where Windows says less than Linux. */
static int unopened(wchar_t *name)
{
    wchar_t *end = wcspbrk(name, L"/\\");
    if (errno == EACCES && is(name, 1))
        errno = EISDIR;
    if (errno == ENOENT && wcslen(name) > 255)
        errno = ENAMETOOLONG;
    for (; errno == ENOENT && end; end = wcspbrk(end + 1, L"/\\")) {
        wchar_t kept = *end;
        *end = 0;
        if (is(name, 0))
            errno = ENOTDIR;
        *end = kept;
    }
    return -1;
}

int l_open(const char *path, int flags, int mode)
{
    static const int all[][2] = {{_O_WRONLY, 1}, {_O_RDWR, 2}, {_O_CREAT, 0100}, {_O_EXCL, 0200}, {_O_TRUNC, 01000}, {_O_APPEND, 02000}};
    wchar_t w[LONGEST];
    int how = _O_BINARY | _O_NOINHERIT;
    (void)mode;
    for (size_t k = 0; k < sizeof all / sizeof *all; k++)
        if (flags & all[k][1])
            how |= all[k][0];
    int fd = _wopen(wide(path, w), how, _S_IREAD | _S_IWRITE);
    if (fd >= 0 && how & _O_APPEND)
        _lseeki64(fd, 0, SEEK_END);
    return fd < 0 ? unopened(w) : fd;
}

/* What statx of Linux tells, as far as the program asks. A link is taken as what it leads to. */
int l_statx(int fd, const char *path, int flags, unsigned mask, char *to)
{
    wchar_t w[LONGEST];
    struct _stat64 about;
    (void)flags, (void)mask;
    if (*path ? _wstat64(wide(path, w), &about) : _fstat64(fd, &about))
        return *path ? unopened(w) : -1;
    uint32_t known = 0x7ff;
    uint16_t kind = about.st_mode;
    uint64_t size = (uint64_t)about.st_size;
    if (!*path && GetFileType(handle(fd)) != FILE_TYPE_DISK)
        kind = GetFileType(handle(fd)) == FILE_TYPE_CHAR ? LINUX_CHAR | 0666 : LINUX_PIPE | 0666;
    else if (*path && !strcmp(path, "/dev/null"))
        kind = LINUX_CHAR | 0666;
    memset(to, 0, 256);
    memcpy(to, &known, 4), memcpy(to + 28, &kind, 2), memcpy(to + 40, &size, 8);
    return 0;
}

char *l_realpath(const char *path, char *to)
{
    wchar_t w[LONGEST], full[LONGEST];
    if (GetFileAttributesW(wide(path, w)) == INVALID_FILE_ATTRIBUTES)
        return failed(), (char *)0;
    if (!_wfullpath(full, w, LONGEST) || !WideCharToMultiByte(CP_UTF8, 0, full, -1, to, LONGEST, 0, 0))
        return errno = ENAMETOOLONG, (char *)0;
    return slashes(to), to;
}

/* Windows replaces no file that is open: those that were read to their end are let go. */
static void let_go(void)
{
    int nothing = _wopen(L"NUL", _O_RDONLY | _O_BINARY | _O_NOINHERIT);
    for (int fd = 3; fd < 64; fd++)
        if (fd != nothing && GetFileType(handle(fd)) == FILE_TYPE_DISK && _telli64(fd) == _filelengthi64(fd))
            _dup2(nothing, fd);
    _close(nothing);
}

/* On another drive it copies, since Windows can't do that at once. */
int l_rename(const char *from, const char *to)
{
    enum { HOW = MOVEFILE_REPLACE_EXISTING | MOVEFILE_COPY_ALLOWED };
    wchar_t a[LONGEST], b[LONGEST];
    wide(from, a), wide(to, b);
    return MoveFileExW(a, b, HOW) || (let_go(), MoveFileExW(a, b, HOW)) ? 0 : (int)failed();
}

int l_unlink(const char *path) { return _wunlink(wide(path, (wchar_t[LONGEST]){0})); }
int l_close(int fd) { return _close(fd); }
int l_ftruncate(int fd, int64_t n) { return (errno = _chsize_s(fd, n)) ? -1 : 0; }
int l_fsync(int fd) { return _commit(fd); }
int l_fdatasync(int fd) { return _commit(fd); }
int l_fchmod(int fd, unsigned mode) { (void)fd, (void)mode; return 0; }
int l_flock(int fd, int how) { (void)fd, (void)how; return 0; }
int64_t l_signal(int number, int64_t how) { (void)number, (void)how; return 0; } /* there is no SIGPIPE */

int l_strerror_r(int error, char *to, size_t room)
{
    rattle_set_errno(error);
    snprintf(to, room, "%s", strerror(errno));
    return 0;
}

int mixrev_main(void);

int wmain(int c, wchar_t **w)
{
    HANDLE out = GetStdHandle(STD_OUTPUT_HANDLE);
    UINT reads = GetConsoleCP(), writes = GetConsoleOutputCP();
    DWORD mode;
    count = (size_t)c, words = w;
    SetConsoleCP(CP_UTF8), SetConsoleOutputCP(CP_UTF8);
    if (GetConsoleMode(out, &mode))
        SetConsoleMode(out, mode | ENABLE_VIRTUAL_TERMINAL_PROCESSING);
    if (c > 1 && !wcscmp(w[1], L"debug") && l_isatty(0))
        SetConsoleCtrlHandler(0, TRUE); /* Ctrl-C leaves the line and not the session */
    for (int fd = 0; fd < 3; fd++)
        _setmode(fd, _O_BINARY);
    int status = mixrev_main();
    SetConsoleCP(reads), SetConsoleOutputCP(writes);
    return status;
}
