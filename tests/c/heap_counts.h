/* The heap of a test: it counts the blocks that are not given back, and refuses an allocation where it is told to. The test is linked with
 * --wrap=malloc, --wrap=realloc and --wrap=free. */
#ifndef HEAP_COUNTS_H
#define HEAP_COUNTS_H

#include <stddef.h>

void *__real_malloc(size_t size);
void *__real_realloc(void *at, size_t size);
void __real_free(void *at);

static struct {
    long blocks;      /* that are not given back */
    long allocations; /* that were asked for */
    long refuse_at;   /* the number of the one that is refused, or 0 */
    long refused;     /* that were refused */
} heap;

static int is_refused(void)
{
    heap.allocations++;
    heap.refused += heap.allocations == heap.refuse_at;
    return heap.allocations == heap.refuse_at;
}

void *__wrap_malloc(size_t size)
{
    void *at = is_refused() ? NULL : __real_malloc(size);
    heap.blocks += at != NULL;
    return at;
}

void *__wrap_realloc(void *at, size_t size)
{
    void *again = is_refused() ? NULL : __real_realloc(at, size);
    heap.blocks += again != NULL && at == NULL;
    return again;
}

void __wrap_free(void *at)
{
    heap.blocks -= at != NULL;
    __real_free(at);
}

#endif
