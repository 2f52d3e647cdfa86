/* Tries heap.c against a plan of takes, resizes and gives: each memory keeps its bytes, none overlaps another, all is joined at the end,
 * and a program that is refused memory finds all as it was. Compiled by bindings/js/check; the last line is `heap: ok`. */
#include "heap.h"
#include <stdio.h>
#include <stdlib.h>
#include <string.h>

enum { ROOM = 1 << 24, COUNT = 500, TURNS = 400000 };
static _Alignas(16) uint8_t memory[ROOM];
static size_t lent, limit = ROOM;

uint8_t *heap_first(void) { return memory; }
size_t heap_more(size_t bytes) {
    bytes = (bytes + 4095) & ~(size_t)4095;
    if (lent + bytes > limit) return 0;
    lent += bytes;
    return bytes;
}

static uint64_t state = 7;
static size_t random_below(size_t n) {
    state = state * 6364136223846793005u + 1442695040888963407u;
    return (size_t)(state >> 33) % n;
}
static void must(int holds, const char *what) {
    if (!holds) fprintf(stderr, "heap: %s\n", what), exit(1);
}

static struct { uint8_t *at; size_t size; uint8_t sign; } held[COUNT];

static void fill(int i) { memset(held[i].at, held[i].sign, held[i].size); }
static void look(int i, size_t size) {
    for (size_t at = 0; at < size; at++) must(held[i].at[at] == held[i].sign, "a byte changed");
}
static size_t some_size(void) { return random_below(4) ? random_below(300) : random_below(20000); }

int main(void) {
    size_t refused = 0;
    for (int turn = 0; turn < TURNS; turn++) {
        int i = (int)random_below(COUNT);
        size_t size = some_size();
        if (turn == TURNS / 2) limit = lent;
        if (!held[i].at) {
            held[i].at = heap_take(size);
            if (!held[i].at) { refused++; continue; }
            must((uintptr_t)held[i].at % 16 == 0, "a place is no multiple of 16");
            held[i].size = size, held[i].sign = (uint8_t)turn;
            fill(i);
        } else if (random_below(2)) {
            look(i, held[i].size);
            heap_give(held[i].at);
            held[i].at = NULL;
        } else {
            uint8_t *to = heap_resize(held[i].at, size);
            if (!to) { refused++, look(i, held[i].size); continue; }
            held[i].at = to;
            look(i, size < held[i].size ? size : held[i].size);
            held[i].size = size;
            fill(i);
        }
    }
    size_t asked = 0;
    for (int i = 0; i < COUNT; i++) asked += held[i].at ? held[i].size : 0;
    must(heap_taken() >= asked && heap_taken() <= asked + asked / 8 + COUNT * 64, "the count of bytes");
    printf("heap: %zu bytes asked, %zu taken, %zu of memory, %zu refused\n", asked, heap_taken(), heap_size(), refused);
    for (int i = 0; i < COUNT; i++) heap_give(held[i].at);
    must(heap_taken() == 0, "bytes are left");
    must(heap_take((size_t)1 << 60) == NULL && heap_resize(heap_take(8), (size_t)1 << 60) == NULL, "too much was given");
    limit = lent;
    uint8_t *all = heap_take(heap_size() - 4096);
    must(all != NULL, "the free blocks are not joined");
    puts("heap: ok");
}
