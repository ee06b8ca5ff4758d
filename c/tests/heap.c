#include "heap.h"

#include <stdbool.h>
#include <stdint.h>
#include <stdlib.h>
#include <string.h>

long heap_blocks, heap_calls, heap_fails_at;
size_t heap_bytes, heap_most;
unsigned heap_fails_one_in;
size_t heap_limit;

void *test_malloc(size_t length);
void *test_realloc(void *old, size_t length);
void test_free(void *block);

/* Each block has its length before it, in a number of bytes that keeps it aligned. */
enum { BEFORE = 16 };

/* Whether a call fails that takes this number of bytes. */
static bool fails(size_t length)
{
    static uint32_t state = 1;
    state = state * 1664525u + 1013904223u;
    if (++heap_calls == heap_fails_at || (heap_fails_one_in && (state >> 8) % heap_fails_one_in == 0))
        return true;
    return heap_limit && (length > heap_limit || heap_bytes > heap_limit - length);
}

static void *taken(uint8_t *start, size_t length)
{
    memcpy(start, &length, sizeof length);
    heap_bytes += length;
    heap_most = heap_bytes > heap_most ? heap_bytes : heap_most;
    return start + BEFORE;
}

static size_t length_of(const uint8_t *start)
{
    size_t length;
    memcpy(&length, start, sizeof length);
    return length;
}

void *test_malloc(size_t length)
{
    uint8_t *start = fails(length) ? NULL : malloc(length + BEFORE);
    if (!start)
        return NULL;
    heap_blocks++;
    return taken(start, length);
}

void *test_realloc(void *old, size_t length)
{
    if (!old)
        return test_malloc(length);
    uint8_t *start = (uint8_t *)old - BEFORE;
    size_t before = length_of(start);
    start = fails(length) ? NULL : realloc(start, length + BEFORE);
    if (!start)
        return NULL;
    void *block = taken(start, length);
    heap_bytes -= before;
    return block;
}

void test_free(void *block)
{
    if (!block)
        return;
    uint8_t *start = (uint8_t *)block - BEFORE;
    heap_blocks--;
    heap_bytes -= length_of(start);
    free(start);
}
