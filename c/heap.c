/* The library's heap: the three functions that it asks for, over malloc, realloc and free, which align to 16 bytes. */
#include <stdbool.h>
#include <stddef.h>
#include <stdlib.h>

/* A block, where there was memory; the pointer is never null. */
struct block {
    bool given;
    void *at;
};

static char nothing;

static struct block block_of(void *at)
{
    return (struct block){ at != NULL, at != NULL ? at : &nothing };
}

struct block rattle_alloc(size_t size, size_t align)
{
    return block_of(malloc(size != 0 ? size : align));
}

struct block rattle_realloc(void *at, size_t kept, size_t size, size_t align)
{
    (void)kept;
    return block_of(realloc(at, size != 0 ? size : align));
}

void rattle_dealloc(void *at)
{
    free(at);
}
