/* The archive's heap, over malloc, realloc and free. A block of no bytes is one of its alignment.
 *
 * The three functions must be those of one allocator. A block must be aligned to each power of two up to 16 that
 * divides its size. A program with an allocator of its own gives these three functions in place of this file. */
#include <stdbool.h>
#include <stddef.h>
#include <stdlib.h>

struct tried {
    bool is_there;
    void *block;
};

struct tried rattle_alloc(size_t length, size_t alignment);
struct tried rattle_realloc(void *old, size_t kept, size_t length, size_t alignment);
void rattle_dealloc(void *block);

/* The address that is returned if there is no memory. */
static _Alignas(16) char nothing[16];

static struct tried tried(void *block) { return (struct tried) { block != NULL, block ? block : nothing }; }

struct tried rattle_alloc(size_t length, size_t alignment) { return tried(malloc(length ? length : alignment)); }

struct tried rattle_realloc(void *old, size_t kept, size_t length, size_t alignment)
{
    (void)kept;
    return tried(realloc(old, length ? length : alignment));
}

void rattle_dealloc(void *block) { free(block); }
