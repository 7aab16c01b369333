/* Refuses one allocation of a program: preloaded, it counts the calls of the C library's allocation functions from 1,
 * and the call number REFUSE_AT answers that there is no memory. The count stands in the first 8 bytes of the file
 * REFUSE_COUNT, which has to be there. For glibc. */
#include <errno.h>
#include <fcntl.h>
#include <stdint.h>
#include <stdlib.h>
#include <sys/mman.h>
#include <unistd.h>

extern void *__libc_malloc(size_t size);
extern void *__libc_calloc(size_t count, size_t size);
extern void *__libc_realloc(void *old, size_t size);
extern void *__libc_memalign(size_t alignment, size_t size);

static volatile uint64_t *count;
static uint64_t refused;

__attribute__((constructor)) static void start(void)
{
    const char *at = getenv("REFUSE_AT"), *path = getenv("REFUSE_COUNT");
    int file = path ? open(path, O_RDWR) : -1;
    if (file < 0)
        _exit(70);
    void *page = mmap(NULL, 8, PROT_READ | PROT_WRITE, MAP_SHARED, file, 0);
    close(file);
    if (page == MAP_FAILED)
        _exit(70);
    refused = at ? strtoull(at, NULL, 10) : 0;
    count = page;
}

static int is_refused(void)
{
    return count && ++*count == refused;
}

static void *none(void)
{
    errno = ENOMEM;
    return NULL;
}

void *malloc(size_t size) { return is_refused() ? none() : __libc_malloc(size); }

void *calloc(size_t many, size_t size) { return is_refused() ? none() : __libc_calloc(many, size); }

void *realloc(void *old, size_t size) { return is_refused() ? none() : __libc_realloc(old, size); }

void *memalign(size_t alignment, size_t size) { return is_refused() ? none() : __libc_memalign(alignment, size); }

void *aligned_alloc(size_t alignment, size_t size) { return memalign(alignment, size); }

int posix_memalign(void **to, size_t alignment, size_t size)
{
    void *made = memalign(alignment, size);
    if (!made)
        return ENOMEM;
    *to = made;
    return 0;
}
