/* The heap of the tests: malloc, realloc and free that count blocks, and fail when they must. A block that grows is in
 * use twice until it has moved. The library's files are compiled with -Dmalloc=test_malloc -Drealloc=test_realloc
 * -Dfree=test_free. */
#ifndef HEAP_H
#define HEAP_H

#include <stddef.h>

extern long heap_blocks;           /* blocks in use */
extern size_t heap_bytes;          /* bytes in use */
extern size_t heap_most;           /* the most bytes that were in use at once */
extern long heap_calls;            /* calls that take memory, so far */
extern long heap_fails_at;         /* the number of the call that fails; none if 0 */
extern unsigned heap_fails_one_in; /* of this number of calls one fails, at random; none if 0 */
extern size_t heap_limit;          /* a call fails if more bytes were in use at once then; any number if 0 */

#endif
