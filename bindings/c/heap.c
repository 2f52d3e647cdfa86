/* The three calls by which the library takes memory, over malloc: for a machine that the kit has no c/liblibc_c.a for. */
#include <stdint.h>
#include <stdlib.h>

/* Whether there is memory, and where; the place of none is never read. */
typedef struct { uint64_t is_there, at; } given;

static given of(void *at) { return at ? (given){1, (uint64_t)at} : (given){0, 16}; }

/* malloc's places are multiples of 16; the library asks for no wider ones. */
given rattle_alloc(uint64_t size, uint64_t align) { return of(align <= 16 ? malloc(size ? size : 1) : NULL); }
given rattle_realloc(void *from, uint64_t old, uint64_t size, uint64_t align) {
    (void)old;
    return of(align <= 16 ? realloc(from, size ? size : 1) : NULL);
}
void rattle_dealloc(void *at) { free(at); }
