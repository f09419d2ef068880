/* A preloaded library that refuses memory. It counts the calls of malloc, calloc, realloc, posix_memalign and aligned_alloc together,
   of all threads, from the start of the program on, and refuses the call with the number REFUSE_MEMORY; where REFUSE_ALL stands
   in the environment, all later ones too. For each refusal it writes a byte to descriptor 9. hostile.py compiles it. */
#include <errno.h>
#include <stdatomic.h>
#include <stdlib.h>
#include <unistd.h>

extern void *__libc_malloc(size_t size);
extern void *__libc_calloc(size_t number, size_t size);
extern void *__libc_realloc(void *old, size_t size);
extern void *__libc_memalign(size_t alignment, size_t size);

static atomic_long calls;
static long refused; /* none before the program starts */
static int all;

__attribute__((constructor)) static void begin(void)
{
    const char *number = getenv("REFUSE_MEMORY");
    all = getenv("REFUSE_ALL") != NULL;
    atomic_store(&calls, 0);
    refused = number ? atol(number) : 0;
}

static int is_refused(void)
{
    long call = atomic_fetch_add(&calls, 1) + 1;
    if (refused == 0 || call < refused || (call > refused && !all))
        return 0;
    if (write(9, "x", 1) != 1)
        abort();
    errno = ENOMEM;
    return 1;
}

void *malloc(size_t size)
{
    return is_refused() ? NULL : __libc_malloc(size);
}

void *calloc(size_t number, size_t size)
{
    return is_refused() ? NULL : __libc_calloc(number, size);
}

void *realloc(void *old, size_t size)
{
    return is_refused() ? NULL : __libc_realloc(old, size);
}

void *aligned_alloc(size_t alignment, size_t size)
{
    return is_refused() ? NULL : __libc_memalign(alignment, size);
}

int posix_memalign(void **result, size_t alignment, size_t size)
{
    void *memory = is_refused() ? NULL : __libc_memalign(alignment, size);
    if (!memory)
        return ENOMEM;
    *result = memory;
    return 0;
}
