/* The heap of the library in WebAssembly: blocks of any size, in lists by size, joined with their free neighbours. */
#ifndef HEAP_H
#define HEAP_H
#ifdef __wasm__
/* The kit's compiler has no headers. */
typedef __SIZE_TYPE__ size_t;
typedef __UINT8_TYPE__ uint8_t;
typedef __UINT64_TYPE__ uint64_t;
typedef __UINTPTR_TYPE__ uintptr_t;
#define NULL ((void *)0)
#else
#include <stddef.h>
#include <stdint.h>
#endif

/* Memory of so many bytes, at a place that is a multiple of 16; NULL where there is none. */
void *heap_take(size_t size);

/* The same memory with another size, perhaps elsewhere; NULL where there is none: it is as it was then. */
void *heap_resize(void *at, size_t size);

/* Gives memory back; nothing where it is NULL. */
void heap_give(void *at);

/* How many bytes are taken, and how many the heap has of the memory. */
size_t heap_taken(void);
size_t heap_size(void);

/* What a program lends: the first byte of memory that is the heap's, and more of it behind, of at least so many bytes; 0: there is none. */
extern uint8_t *heap_first(void);
extern size_t heap_more(size_t bytes);
#endif
