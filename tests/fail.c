/* Fails calls of the program before which it is loaded: those that FAIL tells, of the file FAIL_FILE, of standard input and of standard
   output. FAIL has words KIND:NUMBER:HOW, a space before each: of the calls of a kind the one of this number, counted from 1, fails.
   HOW is a number for a `write` and a `cut` of the file: how many bytes it writes before it fails, and whether it is cut before. The
   calls `sync`, `size` and `read` of the file, and `in` and `out`, do nothing. With `memory` for HOW the system wants memory, and with
   `stop` the process ends there, as by a kill. The calls themselves are the C library's own. */
#define _GNU_SOURCE
#include <dlfcn.h>
#include <errno.h>
#include <signal.h>
#include <stdio.h>
#include <stdlib.h>
#include <string.h>
#include <sys/stat.h>
#include <unistd.h>

enum { LONGEST = 4096 };

enum kind { WRITE, CUT, SYNC, SIZE, READ, IN, OUT };

static const char *const names[] = {"write", "cut", "sync", "size", "read", "in", "out"};
static unsigned long counts[sizeof names / sizeof *names];

static int is_path(const char *path)
{
    const char *file = getenv("FAIL_FILE");
    return file && !strcmp(path, file);
}

static int is_file(int file)
{
    char link[64], path[LONGEST];
    snprintf(link, sizeof link, "/proc/self/fd/%d", file);
    ssize_t size = readlink(link, path, sizeof path - 1);
    path[size > 0 ? size : 0] = 0;
    return is_path(path);
}

/* How much this call of its kind does before it fails, or -1 if it doesn't fail. */
static long kept(enum kind kind)
{
    char wanted[64];
    const char *told = getenv("FAIL"), *how;
    snprintf(wanted, sizeof wanted, " %s:%lu:", names[kind], ++counts[kind]);
    if (!told || !(how = strstr(told, wanted)))
        return -1;
    how += strlen(wanted);
    if (!strncmp(how, "stop", 4))
        raise(SIGKILL);
    errno = strncmp(how, "memory", 6) ? EIO : ENOMEM;
    return strtol(how, NULL, 10);
}

ssize_t write(int file, const void *from, size_t size)
{
    ssize_t (*own)(int, const void *, size_t) = dlsym(RTLD_NEXT, "write");
    if (file == STDOUT_FILENO)
        return kept(OUT) < 0 ? own(file, from, size) : -1;
    long part = is_file(file) ? kept(WRITE) : -1;
    if (part < 0)
        return own(file, from, size);
    if (part > 0)
        own(file, from, (size_t)part < size ? (size_t)part : size);
    errno = EIO;
    return -1;
}

ssize_t read(int file, void *to, size_t size)
{
    ssize_t (*own)(int, void *, size_t) = dlsym(RTLD_NEXT, "read");
    int is_told = file == STDIN_FILENO || is_file(file);
    return is_told && kept(file == STDIN_FILENO ? IN : READ) >= 0 ? -1 : own(file, to, size);
}

int ftruncate(int file, off_t size)
{
    int (*own)(int, off_t) = dlsym(RTLD_NEXT, "ftruncate");
    long part = is_file(file) ? kept(CUT) : -1;
    if (part < 0)
        return own(file, size);
    if (part > 0)
        own(file, size);
    errno = EIO;
    return -1;
}

int fsync(int file)
{
    int (*own)(int) = dlsym(RTLD_NEXT, "fsync");
    return is_file(file) && kept(SYNC) >= 0 ? -1 : own(file);
}

int statx(int folder, const char *restrict path, int flags, unsigned mask, struct statx *restrict found)
{
    int (*own)(int, const char *, int, unsigned, struct statx *) = dlsym(RTLD_NEXT, "statx");
    int is_told = *path ? is_path(path) : is_file(folder);
    return is_told && kept(SIZE) >= 0 ? -1 : own(folder, path, flags, mask, found);
}
