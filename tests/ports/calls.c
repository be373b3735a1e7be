/* Holds the functions of C below a port to what Linux's manual says of them: as a program of its
   own, in the place of mixrev's. Its words: the program's name, a text of two bytes and one, and
   nothing. It runs in an empty folder, with PORT=value and "a", CR, LF, 0, 255 on standard input. */
typedef unsigned char byte;
typedef unsigned long long size;
typedef long long offset;
struct tried { size ok, block; };

#ifdef _WIN32
#define OF(name) l_##name
#define SYSV __attribute__((sysv_abi))
#define __sysv_signal l_signal
#define __xpg_strerror_r l_strerror_r
#else
#define OF(name) name
#define SYSV
#endif
#define open OF(open)
#define close OF(close)
#define read OF(read)
#define write OF(write)
#define lseek OF(lseek)
#define isatty OF(isatty)
#define statx OF(statx)
#define realpath OF(realpath)
#define rename OF(rename)
#define unlink OF(unlink)
#define ftruncate OF(ftruncate)
#define fsync OF(fsync)
#define fdatasync OF(fdatasync)
#define fchmod OF(fchmod)
#define flock OF(flock)

int open(const char *, int, ...), close(int), isatty(int), statx(int, const char *, int, unsigned, byte *);
offset read(int, void *, size), write(int, const void *, size), lseek(int, offset, int);
char *realpath(const char *, char *);
int rename(const char *, const char *), unlink(const char *), ftruncate(int, offset), fsync(int), fdatasync(int), fchmod(int, unsigned), flock(int, int);
offset __sysv_signal(int, offset);
int __xpg_strerror_r(int, char *, size), rattle_errno(void);
void rattle_set_errno(int), rattle_dealloc(void *);
offset rattle_arg(size, char *, size), rattle_env(const char *, char *, size), rattle_env_at(size, char *, size);
SYSV struct tried rattle_alloc(size, size);
SYSV struct tried rattle_realloc(void *, size, size, size);

enum { WRITES = 1, BOTH = 2, CREATE = 0100, NEW = 0200, CUT = 01000, APPEND = 02000, KIND = 0170000, FOLDER = 0040000, FILE = 0100000, HERE = -100 };
static int checks, wrong;
static char path[4096], room[4096];
static byte about[256];

static size length(const char *text)
{
    size n = 0;
    while (text[n])
        n++;
    return n;
}

static int same(const void *a, const void *b, size n)
{
    const byte *x = a, *y = b;
    for (; n; n--)
        if (*x++ != *y++)
            return 0;
    return 1;
}

static void is(int good, const char *said)
{
    checks++;
    if (good)
        return;
    wrong++;
    write(1, "wrong: ", 7), write(1, said, length(said)), write(1, "\n", 1);
}

/* A name as the program gives it: at the beginning of 4,096 bytes that end in 0. */
static const char *named(const char *name)
{
    for (size k = 0; k < sizeof path; k++)
        path[k] = k <= length(name) ? name[k] : 0;
    return path;
}

static int fails(offset answer, int error)
{
    return answer == -1 && rattle_errno() == error;
}

static int mode_of(int fd, const char *name)
{
    return statx(fd, named(name), name[0] ? 0 : 0x1000, 0x7ff, about) ? -1 : about[28] | about[29] << 8;
}

static size length_of(const char *name)
{
    mode_of(HERE, name);
    return about[40] | about[41] << 8;
}

static void words(void)
{
    is(rattle_arg(0, room, 9) == 6 && same(room, "mixrev", 6), "the program's name");
    is(rattle_arg(1, room, 3) == 3 && same(room, "\xc3\xa4z", 3), "a word of three bytes in a room of three");
    room[2] = 1;
    is(rattle_arg(1, room, 2) == -2 && same(room, "\xc3\xa4\1", 3), "a word that does not fit fills the room and no more");
    is(rattle_arg(2, room, 9) == 0, "an empty word");
    is(rattle_arg(3, room, 9) == -1, "no word");
    is(rattle_env(named("PORT"), room, 5) == 5 && same(room, "value", 5), "a variable");
    is(rattle_env(named("NO_SUCH_PORT"), room, 5) == -1, "no variable");
    size k = 0;
    int found = 0;
    for (offset n; k < 10000 && (n = rattle_env_at(k, room, sizeof room)) != -1; k++)
        found += n == 10 && same(room, "PORT=value", 10);
    is(found == 1 && k < 10000, "the variable among all");
}

static void heap(void)
{
    struct tried a = rattle_alloc(100, 16), b = rattle_alloc(0, 1);
    is(a.ok && b.ok && a.block % 16 == 0 && b.block % 16 == 0 && a.block != b.block, "two blocks");
    for (int k = 0; k < 100; k++)
        ((byte *)a.block)[k] = (byte)k;
    a = rattle_realloc((byte *)a.block, 100, 1 << 20, 16);
    is(a.ok && ((byte *)a.block)[99] == 99, "a block that grows keeps its bytes");
    ((byte *)a.block)[(1 << 20) - 1] = 1;
    rattle_dealloc((byte *)a.block), rattle_dealloc((byte *)b.block);
    is(!rattle_alloc((size)1 << 62, 16).ok, "too much is refused");
}

static void errors(void)
{
    static const struct { int number; const char *text; } all[] = {
        {2, "No such file or directory"}, {5, "Input/output error"}, {12, "Cannot allocate memory"}, {13, "Permission denied"}, {17, "File exists"},
        {20, "Not a directory"}, {21, "Is a directory"}, {28, "No space left on device"}, {36, "File name too long"}};
    for (size k = 0; k < sizeof all / sizeof *all; k++) {
        rattle_set_errno(all[k].number);
        is(rattle_errno() == all[k].number, "an error's number");
        is(__xpg_strerror_r(all[k].number, room, 100) == 0 && same(room, all[k].text, length(all[k].text) + 1), all[k].text);
    }
}

static void files(void)
{
    static const byte text[] = {'a', '\r', '\n', 26, 0, 255};
    int fd = open(named("file"), WRITES | CREATE | NEW, 0666);
    is(fd > 2 && write(fd, text, 6) == 6 && fchmod(fd, 0644) == 0 && fsync(fd) == 0 && fdatasync(fd) == 0, "a new file");
    is(close(fd) == 0 && fails(close(fd), 9), "it is closed once");
    is((mode_of(HERE, "file") & KIND) == FILE && length_of("file") == 6, "a file of six bytes");
    is(fails(open(named("file"), WRITES | CREATE | NEW, 0666), 17), "a file that is there is not new");
    fd = open(named("file"), 0);
    is(read(fd, room, 100) == 6 && same(room, text, 6) && read(fd, room, 100) == 0, "all its bytes are read");
    is((mode_of(fd, "") & KIND) == FILE && flock(fd, 2) == 0, "the file that is open");
    close(fd), fd = open(named("file"), WRITES | CREATE | APPEND, 0666);
    is(write(fd, "z", 1) == 1 && close(fd) == 0 && length_of("file") == 7, "a byte is appended");
    fd = open(named("file"), BOTH);
    is(ftruncate(fd, 3) == 0 && close(fd) == 0 && length_of("file") == 3, "it is cut");
    fd = open(named("\xce\xb1 b"), WRITES | CREATE | CUT, 0666);
    is(write(fd, "", 0) == 0 && close(fd) == 0 && length_of("\xce\xb1 b") == 0, "a Greek name");
    char other[4096] = "file";
    fd = open(named("\xce\xb1 b"), 0);
    is(rename(other, named("\xce\xb1 b")) == 0 && length_of("\xce\xb1 b") == 3, "it is put over another one");
    is(read(fd, room, 1) == 0 && close(fd) == 0, "that one was open, and is at its end as before");
    is(fails(open(named("file"), 0), 2) && fails(mode_of(HERE, "file"), 2) && fails(unlink(named("file")), 2), "the old name is gone");
    is(fails(open(named("no/file"), WRITES | CREATE, 0666), 2), "no folder");
    is(fails(open(named("\xce\xb1 b/file"), 0), 20), "a file is no folder");
    is((mode_of(HERE, ".") & KIND) == FOLDER && fails(open(named("."), WRITES), 21), "a folder is not written to");
    is(realpath(named("\xce\xb1 b"), room) == room && length(room) > 5 && same(room + length(room) - 5, "/\xce\xb1 b", 5), "the whole name");
    is(!realpath(named("none"), room) && rattle_errno() == 2, "the whole name of nothing");
    fd = open(named("/dev/null"), WRITES);
    is(fd > 2 && write(fd, "a", 1) == 1 && close(fd) == 0, "/dev/null");
}

static void streams(void)
{
    is(fails(lseek(0, 0, 1), 29), "a pipe has no place");
    is(isatty(0) == 0 && rattle_errno() == 25, "a pipe is no terminal");
    offset all = 0;
    for (offset n; (n = read(0, room + all, 2)) > 0;)
        all += n;
    is(all == 5 && same(room, "a\r\n\0\xff", 5), "standard input to its end");
    is(fails(read(99, room, 1), 9), "a stream that is not open");
    is(__sysv_signal(13, 1) == 0, "SIGPIPE is ignored");
}

#if defined _WIN32 || defined __wasm__
int mixrev_main(void)
#else
int main(void)
#endif
{
    words(), heap(), errors(), files(), streams();
    char said[] = "000 checks, 00 wrong\n";
    said[0] += checks / 100 % 10, said[1] += checks / 10 % 10, said[2] += checks % 10, said[12] += wrong / 10, said[13] += wrong % 10;
    write(1, said, length(said));
    return wrong > 0;
}
