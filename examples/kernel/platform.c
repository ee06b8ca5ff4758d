/* Text, the stack, a heap, and what compilers call. */
#include "platform.h"

#include <stdarg.h>
#include <stdlib.h>
#include <string.h>

/* ---- Text ---- */

static void put_number(uint64_t number, unsigned base, int width)
{
    char digits[20];
    int count = 0;
    do
        digits[count++] = "0123456789abcdef"[number % base];
    while ((number /= base) || count < width);
    while (count)
        put(digits[--count]);
}

void print(const char *format, ...)
{
    va_list values;
    va_start(values, format);
    for (; *format; format++) {
        int width = 0;
        if (*format != '%') {
            put(*format);
            continue;
        }
        while (*++format >= '0' && *format <= '9')
            width = 10 * width + *format - '0';
        if (*format == 's')
            for (const char *text = va_arg(values, const char *); *text; text++)
                put(*text);
        else
            put_number(va_arg(values, unsigned), *format == 'x' ? 16 : 10, width);
    }
    va_end(values);
}

void die(const char *what)
{
    print("%s\n", what);
    leave(1);
}

void pause_us(uint64_t us)
{
    for (uint64_t until = now_us() + us; now_us() < until;)
        ;
}

/* ---- The stack, from boot_stack up to boot_stack_top ---- */

extern uint8_t boot_stack[], boot_stack_top[];
enum { PAINT = 0xA5 };

/* Paints all of it that is not in use. */
__attribute__((noinline)) void paint_stack(void)
{
    uint8_t *end = (uint8_t *)__builtin_frame_address(0) - 256;
    for (volatile uint8_t *at = boot_stack; at < end; at++)
        *at = PAINT;
}

size_t stack_used(void)
{
    const uint8_t *at = boot_stack;
    while (at < boot_stack_top && *at == PAINT)
        at++;
    return (size_t)(boot_stack_top - at);
}

/* ---- A heap: blocks in a row, of which the first free one that is long enough is taken ---- */

struct block {
    size_t length, is_free; /* 16 bytes, so each block is aligned to 16 */
};

static struct {
    struct block first;
    uint8_t bytes[4 << 20];
} heap __attribute__((aligned(16)));
static size_t used, most;

static struct block *next(struct block *it) { return (struct block *)((uint8_t *)(it + 1) + it->length); }

static struct block *heap_end(void) { return (struct block *)(heap.bytes + sizeof heap.bytes); }

size_t heap_used(void) { return used; }

size_t heap_most(void) { return most; }

/* Takes a free block, and leaves what is too long free. */
static void *take(struct block *it, size_t length)
{
    if (it->length >= length + sizeof *it) {
        size_t left = it->length - length - sizeof *it;
        it->length = length;
        *next(it) = (struct block) { left, 1 };
    }
    it->is_free = 0;
    used += it->length;
    most = used > most ? used : most;
    return it + 1;
}

void *malloc(size_t length)
{
    length = length ? (length + 15) & ~(size_t)15 : 16;
    if (!heap.first.length && !heap.first.is_free)
        heap.first = (struct block) { sizeof heap.bytes, 1 };
    for (struct block *it = &heap.first; it < heap_end(); it = next(it)) {
        if (!it->is_free)
            continue;
        while (next(it) < heap_end() && next(it)->is_free)
            it->length += sizeof *it + next(it)->length;
        if (it->length >= length)
            return take(it, length);
    }
    return NULL;
}

void free(void *block)
{
    struct block *it = (struct block *)block - 1;
    if (!block)
        return;
    it->is_free = 1;
    used -= it->length;
}

void *realloc(void *block, size_t length)
{
    struct block *it = (struct block *)block - 1;
    if (block && it->length >= length)
        return block;
    void *made = malloc(length);
    if (made && block) {
        memcpy(made, block, it->length);
        free(block);
    }
    return made;
}

/* ---- What compilers call ---- */

/* Bytes and words are volatile, so that no compiler makes a call of the function itself of its loop. A word may be at
 * any address. */
typedef volatile uint64_t __attribute__((aligned(1), may_alias)) word;

void *memcpy(void *to, const void *from, size_t count)
{
    volatile uint8_t *at = to;
    const volatile uint8_t *source = from;
    for (; count >= sizeof(word); count -= sizeof(word), at += sizeof(word), source += sizeof(word))
        *(word *)at = *(const word *)source;
    for (; count; count--)
        *at++ = *source++;
    return to;
}

void *memset(void *to, int byte, size_t count)
{
    volatile uint8_t *at = to;
    uint64_t bytes = (uint8_t)byte * UINT64_C(0x0101010101010101);
    for (; count >= sizeof(word); count -= sizeof(word), at += sizeof(word))
        *(word *)at = bytes;
    for (; count; count--)
        *at++ = (uint8_t)byte;
    return to;
}

void *memmove(void *to, const void *from, size_t count)
{
    if ((uintptr_t)to - (uintptr_t)from >= count)
        return memcpy(to, from, count);
    for (volatile uint8_t *at = to; count--;)
        at[count] = ((const volatile uint8_t *)from)[count];
    return to;
}

int memcmp(const void *a, const void *b, size_t count)
{
    const volatile uint8_t *left = a, *right = b;
    for (; count; count--, left++, right++)
        if (*left != *right)
            return *left - *right;
    return 0;
}

int bcmp(const void *a, const void *b, size_t count) { return memcmp(a, b, count); }
