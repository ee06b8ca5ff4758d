/* What the library needs of the C library's <stdlib.h>. */
#ifndef STDLIB_H
#define STDLIB_H
#include <stddef.h>

void *malloc(size_t length);
void *realloc(void *block, size_t length);
void free(void *block);

#endif
