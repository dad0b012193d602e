/* Counts what a program asks the C library for, and refuses some of it; refuse_allocations.py beside this file loads it before the program.

   REFUSE_TALLY is a file of 16 bytes: how many calls asked for memory, and how many of them were refused. It is a mapped file since a
   program may end without telling its libraries. REFUSE_FROM is the number of the call that is refused, from 1, or 0 for none;
   REFUSE_AFTER is 1 where all calls after it are refused too. What the loader asks for before the program starts is not counted. */
#include <errno.h>
#include <fcntl.h>
#include <stdatomic.h>
#include <stdint.h>
#include <stdlib.h>
#include <sys/mman.h>
#include <unistd.h>

/* The C library's own names for what stands below by its plain names. */
extern void *__libc_malloc(size_t size);
extern void *__libc_calloc(size_t count, size_t size);
extern void *__libc_realloc(void *block, size_t size);
extern void *__libc_memalign(size_t alignment, size_t size);

struct tally {
    _Atomic uint64_t asked;
    _Atomic uint64_t refused;
};

static struct tally *tally;
static uint64_t from;
static int after;

__attribute__((constructor)) static void start(void)
{
    const char *path = getenv("REFUSE_TALLY");
    const char *call = getenv("REFUSE_FROM");
    const char *rest = getenv("REFUSE_AFTER");
    int file = path ? open(path, O_RDWR | O_CLOEXEC) : -1;
    void *page = file < 0 ? MAP_FAILED : mmap(NULL, sizeof *tally, PROT_READ | PROT_WRITE, MAP_SHARED, file, 0);
    if (page == MAP_FAILED)
        _exit(125);
    close(file);
    from = call ? strtoull(call, NULL, 10) : 0;
    after = rest && *rest == '1';
    tally = page;
}

static int is_refused(void)
{
    if (!tally)
        return 0;
    uint64_t call = atomic_fetch_add(&tally->asked, 1) + 1;
    if (from == 0 || call < from || (call > from && !after))
        return 0;
    atomic_fetch_add(&tally->refused, 1);
    errno = ENOMEM;
    return 1;
}

void *malloc(size_t size)
{
    return is_refused() ? NULL : __libc_malloc(size);
}

void *calloc(size_t count, size_t size)
{
    return is_refused() ? NULL : __libc_calloc(count, size);
}

void *realloc(void *block, size_t size)
{
    return is_refused() ? NULL : __libc_realloc(block, size);
}

void *aligned_alloc(size_t alignment, size_t size)
{
    return is_refused() ? NULL : __libc_memalign(alignment, size);
}

int posix_memalign(void **block, size_t alignment, size_t size)
{
    void *found = is_refused() ? NULL : __libc_memalign(alignment, size);
    if (!found)
        return ENOMEM;
    *block = found;
    return 0;
}
