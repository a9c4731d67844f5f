/* Stops the program before which it is loaded ahead of its `main`, and runs it as often as it is asked. Each run is a fork that goes on
   to `main` with the words that the program was started with, and has SECONDS of a processor. On standard input comes what a run is
   given: its length, and the bytes. On standard output goes how the run ended, as waitpid says it, the length of its output, and the
   bytes. A number takes eight bytes in the machine's own order. */
#define _GNU_SOURCE
#include <stdint.h>
#include <sys/mman.h>
#include <sys/resource.h>
#include <sys/wait.h>
#include <unistd.h>

enum { SECONDS = 60, LONGEST = 1 << 20, FAILED = 9 };

static char bytes[LONGEST];

static int reads(void *to, size_t size)
{
    for (size_t had = 0; had < size;) {
        ssize_t got = read(STDIN_FILENO, (char *)to + had, size - had);
        if (got <= 0)
            return 0;
        had += got;
    }
    return 1;
}

static void tell(const void *from, size_t size)
{
    for (size_t told = 0; told < size;) {
        ssize_t put = write(STDOUT_FILENO, (const char *)from + told, size - told);
        if (put <= 0)
            _exit(FAILED);
        told += put;
    }
}

/* Leaves these bytes alone in the file, which stands before the first. */
static void fill(int file, const void *from, size_t size)
{
    if (ftruncate(file, 0) || pwrite(file, from, size, 0) != (ssize_t)size || lseek(file, 0, SEEK_SET))
        _exit(FAILED);
}

__attribute__((constructor)) static void serve(void)
{
    int given = memfd_create("given", 0), told = memfd_create("told", 0), status;
    uint64_t size;
    while (reads(&size, sizeof size) && size <= LONGEST && reads(bytes, size)) {
        fill(given, bytes, size);
        fill(told, bytes, 0);
        pid_t run = fork();
        if (run == 0) {
            dup2(given, STDIN_FILENO);
            dup2(told, STDOUT_FILENO);
            close(given);
            close(told);
            setrlimit(RLIMIT_CPU, &(struct rlimit){SECONDS, SECONDS});
            return;
        }
        if (run < 0 || waitpid(run, &status, 0) != run)
            _exit(FAILED);
        ssize_t length = pread(told, bytes, LONGEST, 0);
        if (length < 0)
            _exit(FAILED);
        tell((uint64_t[]){status, length}, 2 * sizeof(uint64_t));
        tell(bytes, length);
    }
    _exit(0);
}
