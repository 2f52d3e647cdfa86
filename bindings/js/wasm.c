/* What the library asks of a machine, in WebAssembly: the heap's memory, runs of bytes, and whole numbers of 128 bits. Places are numbers of
 * 64 bits here; the module that is made of it has a memory of 32, of 4 GB at most (see build). */
#include "heap.h"
typedef unsigned __int128 u128;
enum { PAGE = 65536, PAGES = 65535 };
extern uint8_t __heap_base;

uint8_t *heap_first(void) { return (uint8_t *)(((uintptr_t)&__heap_base + 15) & ~(uintptr_t)15); }

static size_t given, most = (size_t)-1;

/* The heap gets no more memory than this: a page's own limit, and how tests refuse memory. */
void phone_memory_most(size_t bytes) { most = bytes; }

/* Grows the memory by so many pages. Whether it did is told by its size: what the instruction answers has another width in the memory of 32. */
static int grow(size_t pages) {
    size_t has = __builtin_wasm_memory_size(0);
    if (has > PAGES || pages > PAGES - has) return 0;
    __builtin_wasm_memory_grow(0, pages);
    return __builtin_wasm_memory_size(0) == has + pages;
}

/* The first call gives what the memory has; later ones grow it, by a sixteenth at least. */
size_t heap_more(size_t bytes) {
    if (bytes > most || given > most - bytes) return 0;
    size_t has = __builtin_wasm_memory_size(0) * (size_t)PAGE - (size_t)heap_first();
    if (has - given < bytes) {
        size_t pages = (bytes - (has - given) + PAGE - 1) / PAGE, least = __builtin_wasm_memory_size(0) / 16;
        if (pages < least && grow(least)) has += least * PAGE;
        else if (grow(pages)) has += pages * PAGE;
        else return 0;
    }
    bytes = (has - given) & ~(size_t)15;
    given += bytes;
    return bytes;
}

/* Memory for a caller in JavaScript. */
void *phone_memory(size_t size) { return heap_take(size); }
void phone_memory_back(void *at) { heap_give(at); }

/* Places are multiples of 16, which is all that the library asks. */
void *heap_of(size_t size) { return heap_take(size); }
void *heap_again(void *at, size_t size) { return heap_resize(at, size); }

/* Short runs of bytes, as nearly all are, are moved here: WebAssembly's own instruction for it is a call of the machine's code. All of a
 * short run is read before any of it is written, so runs may overlap. */
typedef uint8_t wide __attribute__((vector_size(16), aligned(1)));
typedef uint64_t u64 __attribute__((aligned(1)));
typedef __UINT32_TYPE__ u32 __attribute__((aligned(1)));
typedef __UINT16_TYPE__ u16 __attribute__((aligned(1)));
#define ENDS(type) do { \
        type first = *(const type *)a, last = *(const type *)(a + n - sizeof(type)); \
        *(type *)to = first, *(type *)((uint8_t *)to + n - sizeof(type)) = last; \
    } while (0)

void *memmove(void *to, const void *from, size_t n) {
    const uint8_t *a = from;
    if (n > 64) return __builtin_memmove(to, from, n);
    if (n > 32) {
        wide one = *(const wide *)a, two = *(const wide *)(a + 16), three = *(const wide *)(a + n - 32), four = *(const wide *)(a + n - 16);
        uint8_t *b = to;
        *(wide *)b = one, *(wide *)(b + 16) = two, *(wide *)(b + n - 32) = three, *(wide *)(b + n - 16) = four;
    } else if (n >= 16) ENDS(wide);
    else if (n >= 8) ENDS(u64);
    else if (n >= 4) ENDS(u32);
    else if (n >= 2) ENDS(u16);
    else if (n) *(uint8_t *)to = *a;
    return to;
}
void *memcpy(void *to, const void *from, size_t n) { return memmove(to, from, n); }
void *memset(void *to, int byte, size_t n) {
    uint8_t *b = to;
    if (n > 64) return __builtin_memset(to, byte, n);
    if (n >= 16) {
        wide all = (wide){} + (uint8_t)byte;
        for (size_t i = 0; i + 16 <= n; i += 16) *(wide *)(b + i) = all;
        *(wide *)(b + n - 16) = all;
    } else for (size_t i = 0; i < n; i++) b[i] = (uint8_t)byte;
    return to;
}
int memcmp(const void *one, const void *two, size_t n) {
    const uint8_t *a = one, *b = two;
    for (; n >= 8; n -= 8, a += 8, b += 8)
        if (*(const u64 *)a != *(const u64 *)b) break;
    for (size_t i = 0; i < n; i++)
        if (a[i] != b[i]) return a[i] - b[i];
    return 0;
}

u128 __multi3(u128 a, u128 b) {
    uint64_t al = (uint64_t)a, bl = (uint64_t)b, mask = 0xffffffff;
    uint64_t low = (al & mask) * (bl & mask), one = (al >> 32) * (bl & mask), two = (al & mask) * (bl >> 32);
    uint64_t middle = (low >> 32) + (one & mask) + (two & mask);
    uint64_t high = (al >> 32) * (bl >> 32) + (one >> 32) + (two >> 32) + (middle >> 32);
    high += al * (uint64_t)(b >> 64) + (uint64_t)(a >> 64) * bl;
    return (u128)high << 64 | (middle << 32 | (low & mask));
}
u128 __ashlti3(u128 a, int by) {
    uint64_t low = (uint64_t)a, high = (uint64_t)(a >> 64);
    if (by >= 64) return (u128)(low << (by - 64)) << 64;
    if (by) high = high << by | low >> (64 - by);
    return (u128)high << 64 | low << by;
}
u128 __lshrti3(u128 a, int by) {
    uint64_t low = (uint64_t)a, high = (uint64_t)(a >> 64);
    if (by >= 64) return high >> (by - 64);
    if (by) low = low >> by | high << (64 - by);
    return (u128)(high >> by) << 64 | low;
}
