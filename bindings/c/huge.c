/* Columns of 2^31 bytes and more: huge TABLE. The texts stand in a mapping of five GB, of which the machine has those pages alone that are
 * written; the rows between, which hold the rest of the bytes, aren't there, or are read as texts where they are short. Offsets of 64 bits
 * reach past 2^32, those of 32 bits up to 2^32 - 1: more bytes are asked in pieces, or by the other call. The last line is `huge: ok`. */
#define _DEFAULT_SOURCE
#include "phone.h"
#include <stdio.h>
#include <stdlib.h>
#include <string.h>
#include <sys/mman.h>
#define CHECK(n, is) do { if (!(is)) { printf("huge: %d\n", n); exit(1); } } while (0)
enum { ROWS = 5, ROOM = 4096 };

static const uint32_t COLUMNS[] = {PHONE_COLUMN_E164, PHONE_COLUMN_REFUSAL, PHONE_COLUMN_IS_NUMBER};
static const char ONE[] = "03-331 6005", OTHER[] = "+1 650 253 0000";
static uint8_t out[ROOM];
static phone_place places[4];

/* The answers are those of a number, nothing, a number, nothing, and a refusal. */
static void check(int n, phone_status status) {
    static const uint64_t ENDS[] = {0, 11, 11, 23, 23, 23};
    CHECK(n, status == PHONE_OK);
    CHECK(n + 1, !memcmp(out + places[0].start, ENDS, sizeof ENDS) && !memcmp(out + places[1].start, "+6433316005+16502530000", 23));
    CHECK(n + 2, out[places[3].start] == 5 && !memcmp(out + places[2].start, "\0\0\0\0\1", 5));
}

int main(int count, char **words) {
    static uint8_t table[1 << 22];
    static const uint8_t THERE[] = {0x15};
    const uint64_t size = (uint64_t)5 << 30;
    phone_handle world = PHONE_CLOSED;
    size_t wrote;
    FILE *file = count > 1 ? fopen(words[1], "rb") : NULL;
    CHECK(1, file != NULL);
    size_t len = fread(table, 1, sizeof table, file);
    fclose(file);
    CHECK(2, phone_open(table, len, PHONE_LIBRARY, &world) == PHONE_OK);
    uint8_t *bytes = mmap(NULL, size, PROT_READ | PROT_WRITE, MAP_PRIVATE | MAP_ANONYMOUS | MAP_NORESERVE, -1, 0);
    CHECK(3, bytes != MAP_FAILED);
    phone_texts hint = phone_one_hint("NZ", 2);
    phone_narrow_texts narrow_hint = phone_narrow_one_hint("NZ", 2);

    /* Where the second number stands: past 2^31, just before and past 2^32. */
    const uint64_t places_of_it[] = {((uint64_t)1 << 31) - 7, ((uint64_t)1 << 31) + 5, ((uint64_t)1 << 32) - 40, ((uint64_t)1 << 32) + 5};
    memcpy(bytes, ONE, 11);
    for (int k = 0; k < 4; k++) {
        uint64_t at = places_of_it[k], offsets[ROWS + 1] = {0, 11, at, at + 15, at + 17, at + 22};
        memcpy(bytes + at, OTHER, 15), memcpy(bytes + at + 17, "empty", 5);
        phone_texts texts = phone_texts_of(offsets, ROWS, bytes, THERE, 0);
        texts.bytes_len = size;
        memset(out, 0, sizeof out);
        check(10 * (k + 1), phone_columns(&world, &texts, &hint, COLUMNS, 3, places, 4, out, ROOM, &wrote));
        /* A bound that is one byte short refuses the layout. */
        texts.bytes_len = at + 21;
        CHECK(5, phone_columns(&world, &texts, &hint, COLUMNS, 3, places, 4, out, ROOM, &wrote) == PHONE_BAD_LAYOUT);
        if (at + 22 > UINT32_MAX) continue;
        uint32_t narrow[ROWS + 1];
        for (int i = 0; i <= ROWS; i++) narrow[i] = (uint32_t)offsets[i];
        phone_narrow_texts own = phone_narrow_texts_of(narrow, ROWS, bytes, THERE, 0);
        own.bytes_len = size;
        memset(out, 0, sizeof out);
        check(10 * (k + 1) + 3, phone_narrow_columns(&world, &own, &narrow_hint, COLUMNS, 3, places, 4, out, ROOM, &wrote));
    }
    /* An offset of 64 bits that wraps to a small one of 32 is no place. */
    uint64_t past[] = {0, ((uint64_t)1 << 63) + 11};
    phone_texts none = phone_texts_of(past, 1, bytes, NULL, 0);
    none.bytes_len = size;
    CHECK(6, phone_columns(&world, &none, &hint, COLUMNS, 3, places, 4, out, ROOM, &wrote) == PHONE_BAD_LAYOUT);
    phone_close(&world);
    puts("huge: ok");
    return 0;
}
