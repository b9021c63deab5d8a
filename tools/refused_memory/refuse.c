/* Refuses allocations of a program that is started with this library in LD_PRELOAD.
 *
 * REFUSE=N refuses the Nth call that asks for memory, counted from 1 over all threads from the
 * beginning of main on, and REFUSE=N+ that call and every later one. Where a call was refused, the
 * library writes one byte to descriptor 9, so that whoever started the program knows that it made
 * so many calls. */
#include <errno.h>
#include <stdatomic.h>
#include <stddef.h>
#include <stdint.h>
#include <stdlib.h>
#include <unistd.h>

void *__libc_malloc(size_t);
void *__libc_calloc(size_t, size_t);
void *__libc_realloc(void *, size_t);
void *__libc_memalign(size_t, size_t);

static unsigned long first, last;
static atomic_ulong calls;
static atomic_flag told = ATOMIC_FLAG_INIT;

__attribute__((constructor)) static void begin(void)
{
    const char *text = getenv("REFUSE");
    char *end = NULL;

    if (text == NULL)
        return;
    first = strtoul(text, &end, 10);
    last = *end == '+' ? -1UL : first;
}

static int refused(void)
{
    unsigned long call;

    if (first == 0)
        return 0;
    call = atomic_fetch_add(&calls, 1) + 1;
    if (call < first || call > last)
        return 0;
    if (!atomic_flag_test_and_set(&told) && write(9, "!", 1) != 1)
        _exit(99);
    errno = ENOMEM;
    return 1;
}

void *malloc(size_t size)
{
    return refused() ? NULL : __libc_malloc(size);
}

void *calloc(size_t count, size_t size)
{
    return refused() ? NULL : __libc_calloc(count, size);
}

void *realloc(void *old, size_t size)
{
    return refused() ? NULL : __libc_realloc(old, size);
}

void *memalign(size_t align, size_t size)
{
    return refused() ? NULL : __libc_memalign(align, size);
}

void *aligned_alloc(size_t align, size_t size)
{
    return memalign(align, size);
}

int posix_memalign(void **place, size_t align, size_t size)
{
    void *memory = refused() ? NULL : __libc_memalign(align, size);

    if (memory == NULL)
        return ENOMEM;
    *place = memory;
    return 0;
}
