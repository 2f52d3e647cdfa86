/* See heap.h. Memory is a row of blocks without gaps. A block is a head and its bytes; the last one is a head alone, of size 0 and taken.
 * A free block is in the list of its class, and no two free blocks stand side by side. Classes are eight for each power of two, so a block
 * of the first class that fits wholly is at most an eighth too large; what a block has beyond what is asked becomes a block. */
#include "heap.h"

/* Sizes are multiples of 16; the lowest bit of `size` says that the block is free. */
typedef struct block {
    size_t size;          /* of its bytes, without the head */
    struct block *before; /* the block in front of it in memory; NULL for the first */
    struct block *next;   /* the neighbours in its list, where it is free: the first of its bytes */
    struct block *last;
} block;
enum { HEAD = 2 * sizeof(size_t), LEAST = 16, FREE = 1, SHIFT = 3, PARTS = 1 << SHIFT, CLASSES = 64 * PARTS };

static block *lists[CLASSES];
static uint64_t full[CLASSES / 64]; /* which lists have a block */
static block *end;                  /* the last head */
static size_t taken, whole;

static size_t size_of(const block *it) { return it->size & ~(size_t)FREE; }
static uint8_t *bytes_of(block *it) { return (uint8_t *)it + HEAD; }
static block *block_of(void *at) { return (block *)((uint8_t *)at - HEAD); }
static block *behind(block *it) { return (block *)(bytes_of(it) + size_of(it)); }

/* The class of a size: its highest bit, and the three below it. */
static unsigned class_of(size_t size) {
    unsigned high = 63 - (unsigned)__builtin_clzll((unsigned long long)size);
    return high * PARTS + (unsigned)((size >> (high - SHIFT)) & (PARTS - 1));
}

static void put(block *it) {
    unsigned at = class_of(it->size);
    it->next = lists[at];
    it->last = NULL;
    if (it->next) it->next->last = it;
    lists[at] = it;
    full[at / 64] |= (uint64_t)1 << at % 64;
    it->size |= FREE;
}

static void pull(block *it) {
    it->size &= ~(size_t)FREE;
    if (it->next) it->next->last = it->last;
    if (it->last) it->last->next = it->next;
    else {
        unsigned at = class_of(it->size);
        lists[at] = it->next;
        if (!it->next) full[at / 64] &= ~((uint64_t)1 << at % 64);
    }
}

/* A free block of at least this size, out of its list; NULL: there is none. */
static block *find(size_t size) {
    unsigned at = class_of(size);
    for (block *it = lists[at]; it; it = it->next)
        if (size_of(it) >= size) return pull(it), it;
    for (unsigned word = ++at / 64; word < CLASSES / 64; word++) {
        uint64_t rest = word == at / 64 ? full[word] & ~(uint64_t)0 << at % 64 : full[word];
        if (rest) {
            block *it = lists[word * 64 + (unsigned)__builtin_ctzll(rest)];
            return pull(it), it;
        }
    }
    return NULL;
}

/* Makes the rest of a taken block beyond this size a free block, where it is one. */
static void cut(block *it, size_t size) {
    if (it->size < size + HEAD + LEAST) return;
    block *rest = (block *)(bytes_of(it) + size), *other = behind(it);
    rest->size = it->size - size - HEAD;
    rest->before = it;
    it->size = size;
    if (other->size & FREE) {
        pull(other);
        rest->size += HEAD + other->size;
        other = behind(rest);
    }
    other->before = rest;
    put(rest);
}

/* Takes more memory behind the last head: a block of at least this size, out of any list. */
static block *grow(size_t size) {
    if (!end) {
        if (!heap_more(HEAD)) return NULL;
        end = (block *)heap_first();
        end->size = 0;
        end->before = NULL;
        whole = HEAD;
    }
    size_t got = heap_more(size + HEAD);
    if (!got) return NULL;
    block *it = end;
    it->size = got - HEAD;
    end = behind(it);
    end->size = 0;
    end->before = it;
    whole += got;
    block *front = it->before;
    if (front && front->size & FREE) {
        pull(front);
        front->size += HEAD + it->size;
        end->before = front;
        return front;
    }
    return it;
}

/* The size of a block that serves so many bytes; 0: none does. */
static size_t rounded(size_t size) {
    if (size > (size_t)1 << 46) return 0;
    return size < LEAST ? LEAST : (size + 15) & ~(size_t)15;
}

void *heap_take(size_t size) {
    size = rounded(size);
    if (!size) return NULL;
    block *it = find(size);
    if (!it && !(it = grow(size))) return NULL;
    cut(it, size);
    taken += it->size;
    return bytes_of(it);
}

void heap_give(void *at) {
    if (!at) return;
    block *it = block_of(at), *front = it->before, *other = behind(it);
    taken -= it->size;
    if (other->size & FREE) {
        pull(other);
        it->size += HEAD + other->size;
    }
    if (front && front->size & FREE) {
        pull(front);
        front->size += HEAD + it->size;
        it = front;
    }
    behind(it)->before = it;
    put(it);
}

void *heap_resize(void *at, size_t size) {
    if (!at) return heap_take(size);
    size = rounded(size);
    if (!size) return NULL;
    block *it = block_of(at), *other = behind(it);
    size_t old = it->size;
    if (size > old && other->size & FREE && old + HEAD + size_of(other) >= size) {
        pull(other);
        it->size += HEAD + other->size;
        behind(it)->before = it;
    }
    if (it->size >= size) {
        cut(it, size);
        taken += it->size - old;
        return at;
    }
    void *to = heap_take(size);
    if (!to) return NULL;
    __builtin_memcpy(to, at, old);
    heap_give(at);
    return to;
}

size_t heap_taken(void) { return taken; }
size_t heap_size(void) { return whole; }
