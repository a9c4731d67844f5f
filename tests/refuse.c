/* Refuses the REFUSE_AT-th call of malloc, calloc or realloc of the program before which it is loaded, and counts these calls in the
   file REFUSE_COUNT. The calls themselves are the C library's own. */
#include <errno.h>
#include <fcntl.h>
#include <stdatomic.h>
#include <stdlib.h>
#include <sys/mman.h>
#include <unistd.h>

extern void *__libc_malloc(size_t size);
extern void *__libc_calloc(size_t count, size_t size);
extern void *__libc_realloc(void *old, size_t size);

static unsigned long refused_at;
static _Atomic unsigned long own_count;
static _Atomic unsigned long *count = &own_count;

__attribute__((constructor)) static void begin(void)
{
    const char *at = getenv("REFUSE_AT");
    const char *path = getenv("REFUSE_COUNT");
    int file = path ? open(path, O_RDWR) : -1;
    if (file >= 0) {
        void *shared = mmap(NULL, sizeof *count, PROT_READ | PROT_WRITE, MAP_SHARED, file, 0);
        if (shared != MAP_FAILED)
            count = shared;
        close(file);
    }
    refused_at = at ? strtoul(at, NULL, 10) : 0;
}

static int is_refused(void)
{
    if (refused_at && atomic_fetch_add(count, 1) + 1 == refused_at) {
        errno = ENOMEM;
        return 1;
    }
    return 0;
}

void *malloc(size_t size)
{
    return is_refused() ? NULL : __libc_malloc(size);
}

void *calloc(size_t number, size_t size)
{
    return is_refused() ? NULL : __libc_calloc(number, size);
}

void *realloc(void *old, size_t size)
{
    return is_refused() ? NULL : __libc_realloc(old, size);
}
