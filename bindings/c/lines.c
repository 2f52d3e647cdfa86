/* The report on lines with their hints: lines TABLE [ROUNDS [RULES]] <LINES. A line is a region, `-` for none, a tab, and the text.
 * ROUNDS times over the lines are timed after the report is written: ns a line on standard error. RULES are `crate`, or `library`. */
#define _POSIX_C_SOURCE 199309L
#include "phone.h"
#include <stdio.h>
#include <stdlib.h>
#include <string.h>
#include <time.h>

static double now(void) {
    struct timespec t;
    clock_gettime(CLOCK_MONOTONIC, &t);
    return (double)t.tv_sec * 1e9 + (double)t.tv_nsec;
}
static uint8_t *read_all(FILE *file, size_t *len) {
    uint8_t *text = malloc(1 << 24);
    *len = text && file ? fread(text, 1, 1 << 24, file) : 0;
    return text;
}

int main(int argc, char **argv) {
    static uint8_t out[4096];
    size_t len, all, wrote, lines = 0;
    long rounds = argc > 2 ? atol(argv[2]) : 0;
    uint8_t *table = read_all(argc > 1 ? fopen(argv[1], "rb") : NULL, &len), *text = read_all(stdin, &all);
    uint32_t rules = argc > 3 && !strcmp(argv[3], "library") ? PHONE_LIBRARY : PHONE_CRATE;
    phone_handle world = PHONE_CLOSED;
    double start = now();
    if (!table || !text || phone_open(table, len, rules, &world) != PHONE_OK) return 1;
    double loaded = now();
    for (long round = 0; round <= rounds; round++) {
        if (round == 1) start = now();
        else if (!round) start = loaded - start;
        for (uint8_t *at = text, *end; at < text + all; at = end + 1) {
            if (!(end = memchr(at, '\n', (size_t)(text + all - at)))) end = text + all;
            uint8_t *tab = memchr(at, '\t', (size_t)(end - at));
            if (!tab) return 2;
            size_t hint = *at == '-' ? 0 : (size_t)(tab - at);
            if (phone_report(&world, at, hint, tab + 1, (size_t)(end - tab - 1), out, sizeof out, &wrote) != PHONE_OK) return 3;
            if (!round) fwrite(out, 1, wrote, stdout), putchar('\n'), lines++;
        }
        if (!round) fprintf(stderr, "C: load %.1f ms\n", start / 1e6);
    }
    if (rounds) fprintf(stderr, "C: %.0f ns a line\n", (now() - start) / (double)rounds / (double)lines);
    phone_close(&world);
    free(table);
    free(text);
    return 0;
}
