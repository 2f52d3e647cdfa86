/* Columns of texts against the calls for one text: columns TABLE. The rows are the examples of all regions and kinds, as each
 * mode prints them, shortened and spoilt, texts that are no UTF-8, empty ones and none, under hints of each sort. They are asked
 * by both rules, whole, in slices of every size and in pieces by threads, with offsets of 64 and of 32 bits. The last line is
 * `columns: ok`, else the number of the first check that failed is printed. */
#define _POSIX_C_SOURCE 200112L
#include "phone.h"
#include <pthread.h>
#include <stdio.h>
#include <stdlib.h>
#include <string.h>
#define CHECK(n, is) do { if (!(is)) { printf("columns: %d\n", n); exit(1); } } while (0)
enum { ROWS = 24000, BYTES = 1 << 20, ROOM = 128, MODES = 4, COLUMNS = 13, BUFFERS = COLUMNS + MODES, THREADS = 8, PIECE = 400 };
/* In front of the first row stand some bytes, and some flags. */
enum { TEXTS_FIRST = 3, HINTS_FIRST = 13 };

#ifdef __SANITIZE_THREAD__
/* What the library does with memory isn't watched: the sanitizer doesn't see its atomic words. */
const char *__tsan_default_suppressions(void);
const char *__tsan_default_suppressions(void) { return "called_from_lib:libphone.so\n"; }
#endif

/* What the calls for one text tell of a row. */
typedef struct {
    phone_status status; /* of phone_parse; PHONE_OK too where there is no text */
    int is_number;
    phone_number number;
    char texts[MODES][ROOM];
    size_t lens[MODES];
    uint8_t region[2], is_valid;
    uint32_t kind;
} answer;

/* A column of texts, of which rows are taken as slices. */
typedef struct {
    uint64_t offsets[ROWS + 1];
    uint32_t narrow[ROWS + 1];
    uint8_t bytes[BYTES], bits[ROWS / 8 + 4];
    size_t first;
} column;
static column texts, hints;
static answer answers[ROWS];
static size_t rows;
static const uint32_t NUMBERS[COLUMNS] = {0, 1, 2, 3, 4, 5, 6, 7, 8, 9, 10, 11, 12};

static int is_there(const column *it, size_t row) { return it->bits[(it->first + row) / 8] >> ((it->first + row) % 8) & 1; }

static void begin(column *it, size_t first) {
    it->first = first;
    it->offsets[0] = it->narrow[0] = 5;
    memset(it->bytes, 0xFF, 5);
}
static void put(column *it, size_t row, const void *text, size_t len) {
    uint64_t at = it->offsets[row];
    CHECK(1, at + len < BYTES);
    if (text) memcpy(it->bytes + at, text, len);
    else memset(it->bytes + at, 0xFF, len);
    if (text) it->bits[(it->first + row) / 8] |= (uint8_t)(1 << ((it->first + row) % 8));
    it->offsets[row + 1] = at + len;
    it->narrow[row + 1] = (uint32_t)(at + len);
}
static void row_of(const void *text, size_t len, const void *hint, size_t hint_len) {
    CHECK(2, rows < ROWS);
    put(&texts, rows, text, len);
    put(&hints, rows++, hint, hint_len);
}

/* The rows of a number: as each mode prints it, and shortened; national texts under its region, others under several hints. */
static void rows_of(phone_handle *world, const char *region, const phone_number *number, const uint8_t *bytes, size_t bytes_len) {
    static const char *const HINTS[] = {NULL, "", "US", "ZZ", "\xff\xfe"};
    uint8_t text[ROOM];
    size_t len;
    for (uint32_t mode = 0; mode < MODES; mode++) {
        memset(text, 0, sizeof text);
        CHECK(3, phone_format(world, number, bytes, bytes_len, mode, text, ROOM, &len) == PHONE_OK);
        if (mode == PHONE_MODE_NATIONAL) row_of(text, len, region, 2);
        const char *hint = HINTS[rows % 5];
        row_of(text, len, hint, hint ? strlen(hint) : 0);
    }
    row_of(text, len / 2, region, 2);
    text[len / 3] = 0xC0;
    row_of(text, len, region, 2);
}
static void all_rows(phone_handle *world) {
    static uint8_t ids[1024], bytes[ROOM];
    size_t ids_len, len;
    begin(&texts, TEXTS_FIRST), begin(&hints, HINTS_FIRST);
    CHECK(4, phone_regions(world, ids, sizeof ids, &ids_len) == PHONE_OK && ids_len > 400);
    for (size_t at = 0; at < ids_len; at += 2)
        for (uint32_t kind = 0; kind <= PHONE_KIND_UNKNOWN; kind++) {
            phone_number number;
            char id[2];
            memcpy(id, ids + at, 2);
            memset(&number, 0, sizeof number);
            if (phone_example(world, ids + at, 2, kind, &number, bytes, ROOM, &len) == PHONE_OK)
                rows_of(world, id, &number, bytes, len);
        }
    row_of(NULL, 0, "NZ", 2), row_of(NULL, 0, "ZZ", 2), row_of(NULL, 3, NULL, 0), row_of("", 0, "NZ", 2);
    row_of("call me", 7, "NZ", 2), row_of("03-331 6005 ext. 12", 19, "NZ", 2), row_of("+64 3 331 6005;ext=3", 20, NULL, 2);
    row_of("\xff", 1, "NZ", 2), row_of("\xff", 1, "ZZ", 2), row_of("0 31 11 2345 6789", 17, "BR", 2), row_of(NULL, 0, NULL, 0);
}

/* What the calls for one text tell of it. */
static answer single(phone_handle *world, const uint8_t *text, size_t len, const uint8_t *hint, size_t hint_len) {
    answer told;
    uint8_t own[ROOM];
    size_t own_len, region_len;
    memset(&told, 0, sizeof told);
    told.status = phone_parse(world, phone_text(hint, hint_len), hint_len, phone_text(text, len), len, &told.number, own, ROOM, &own_len);
    if (told.status != PHONE_OK) return told;
    told.is_number = 1;
    for (uint32_t mode = 0; mode < MODES; mode++)
        CHECK(5, phone_format(world, &told.number, own, own_len, mode, (uint8_t *)told.texts[mode], ROOM, &told.lens[mode]) == PHONE_OK);
    CHECK(6, phone_kind(world, &told.number, &told.kind) == PHONE_OK);
    CHECK(7, phone_region(world, &told.number, told.region, 2, &region_len) == PHONE_OK);
    CHECK(8, phone_is_valid(world, &told.number, &told.is_valid) == PHONE_OK);
    return told;
}
static void learn(phone_handle *world) {
    for (size_t i = 0; i < rows; i++) {
        memset(&answers[i], 0, sizeof answers[i]);
        size_t hint_len = is_there(&hints, i) ? hints.offsets[i + 1] - hints.offsets[i] : 0;
        if (is_there(&texts, i))
            answers[i] = single(world, texts.bytes + texts.offsets[i], texts.offsets[i + 1] - texts.offsets[i],
                                hints.bytes + hints.offsets[i], hint_len);
    }
}

/* The columns of rows, from one on. */
static phone_status ask(phone_handle *world, size_t from, size_t count, int is_narrow, phone_place *places, uint8_t *out,
                        size_t room, size_t *wrote) {
    if (is_narrow) {
        phone_narrow_texts own = phone_narrow_texts_of(texts.narrow + from, count, texts.bytes, texts.bits, texts.first + from);
        phone_narrow_texts with = phone_narrow_texts_of(hints.narrow + from, count, hints.bytes, hints.bits, hints.first + from);
        return phone_narrow_columns(world, &own, &with, NUMBERS, COLUMNS, places, BUFFERS, out, room, wrote);
    }
    phone_texts own = phone_texts_of(texts.offsets + from, count, texts.bytes, texts.bits, texts.first + from);
    phone_texts with = phone_texts_of(hints.offsets + from, count, hints.bytes, hints.bits, hints.first + from);
    return phone_columns(world, &own, &with, NUMBERS, COLUMNS, places, BUFFERS, out, room, wrote);
}

/* The value at a row of a column behind the texts, of so many bytes, is this one. */
static void check_value(const uint8_t *out, const phone_place *places, uint32_t column, size_t row, uint64_t value, size_t width) {
    uint8_t bytes[8];
    for (int i = 0; i < 8; i++) bytes[i] = (uint8_t)(value >> 8 * i);
    CHECK(100 + (int)column, !memcmp(out + places[MODES + column].start + width * row, bytes, width));
}
static void check_row(const uint8_t *out, const phone_place *places, size_t row, const answer *told) {
    for (uint32_t mode = 0; mode < MODES; mode++) {
        uint64_t ends[2];
        memcpy(ends, out + places[2 * mode].start + 8 * row, sizeof ends);
        CHECK(30, ends[1] - ends[0] == told->lens[mode]);
        CHECK(31, !memcmp(out + places[2 * mode + 1].start + ends[0], told->texts[mode], told->lens[mode]));
    }
    check_value(out, places, PHONE_COLUMN_CODE, row, told->number.code, 2);
    check_value(out, places, PHONE_COLUMN_VALUE, row, told->number.value, 8);
    check_value(out, places, PHONE_COLUMN_ZEROS, row, told->number.zeros, 1);
    check_value(out, places, PHONE_COLUMN_KIND, row, told->kind, 1);
    check_value(out, places, PHONE_COLUMN_REGION, row, told->region[0] | told->region[1] << 8, 2);
    check_value(out, places, PHONE_COLUMN_VALIDITY, row, told->is_valid, 1);
    check_value(out, places, PHONE_COLUMN_SOURCE, row, told->number.source, 1);
    check_value(out, places, PHONE_COLUMN_REFUSAL, row, told->status, 1);
    const uint8_t *bits = out + places[MODES + PHONE_COLUMN_IS_NUMBER].start;
    CHECK(32, (bits[row / 8] >> row % 8 & 1) == told->is_number);
}
/* The buffers stand one behind the other, each with what its column has, and zeros between. */
static void check_places(const uint8_t *out, const phone_place *places, size_t count, size_t len) {
    static const size_t WIDTHS[] = {2, 8, 1, 1, 2, 1, 1, 1};
    size_t at = 0;
    for (size_t k = 0; k < BUFFERS; k++) {
        size_t has = places[k].end - places[k].start;
        CHECK(40, places[k].start == at && at % 8 == 0);
        if (k == BUFFERS - 1) CHECK(41, has == (count + 7) / 8);
        else if (k >= 2 * MODES) CHECK(42, has == count * WIDTHS[k - 2 * MODES]);
        else if (k % 2 == 0) CHECK(43, has == 8 * (count + 1));
        for (at = places[k].end; at % 8; at++) CHECK(44, out[at] == 0);
    }
    CHECK(45, at == len);
}
/* Rows from one on: no room is too small and writes nothing, and with what is then told each row is as it is alone. */
static void check_rows(phone_handle *world, size_t from, size_t count, int is_narrow) {
    phone_place places[BUFFERS], none;
    uint8_t *out, nothing[8] = {7, 7, 7, 7, 7, 7, 7, 7};
    size_t need = 99, wrote = 99;
    memset(places, 0x55, sizeof places);
    memset(&none, 0x55, sizeof none);
    CHECK(20, ask(world, from, count, is_narrow, places, nothing, 8, &need) == PHONE_TOO_SMALL && need >= 8 * BUFFERS * (count > 0));
    CHECK(21, nothing[0] == 7 && nothing[7] == 7 && !memcmp(&places[0], &none, sizeof none));
    CHECK(22, (out = (uint8_t *)malloc(need)) != NULL);
    memset(out, 0x55, need);
    CHECK(23, ask(world, from, count, is_narrow, places, out, need, &wrote) == PHONE_OK && wrote == need);
    check_places(out, places, count, need);
    for (size_t i = 0; i < count; i++) check_row(out, places, i, &answers[from + i]);
    free(out);
}

/* One hint for all, without a bitmap; columns in another order, one of them twice. */
static void check_one_hint(phone_handle *world, const char *hint) {
    static const uint32_t FEW[] = {PHONE_COLUMN_IS_NUMBER, PHONE_COLUMN_REGION, PHONE_COLUMN_E164, PHONE_COLUMN_REGION};
    static const char TEXTS[] = "03-331 6005call me+1 650 253 0000";
    static const uint32_t OFFSETS[] = {0, 11, 18, 18, 33};
    uint8_t out[512];
    uint64_t ends[5];
    phone_place places[5];
    size_t wrote = 0, len = strlen(hint);
    phone_narrow_texts own = phone_narrow_texts_of(OFFSETS, 4, TEXTS, NULL, 0), with = phone_narrow_one_hint(hint, len);
    memset(out, 0, sizeof out);
    CHECK(60, phone_narrow_columns(world, &own, &with, FEW, 4, places, 4, out, sizeof out, &wrote) == PHONE_TOO_SMALL && out[0] == 0);
    CHECK(61, phone_narrow_columns(world, &own, &with, FEW, 4, places, 5, out, sizeof out, &wrote) == PHONE_OK);
    CHECK(62, !memcmp(out + places[1].start, out + places[4].start, 8) && places[1].end - places[1].start == 8);
    memcpy(ends, out + places[2].start, sizeof ends);
    for (size_t i = 0; i < 4; i++) {
        answer told = single(world, (const uint8_t *)TEXTS + OFFSETS[i], OFFSETS[i + 1] - OFFSETS[i], (const uint8_t *)hint, len);
        CHECK(63, (out[places[0].start] >> i & 1) == told.is_number && !memcmp(out + places[1].start + 2 * i, told.region, 2));
        CHECK(64, ends[i + 1] - ends[i] == told.lens[0] && !memcmp(out + places[3].start + ends[i], told.texts[0], told.lens[0]));
    }
}

/* What a thread has: which of the pieces are its, and a handle on the table of all. */
typedef struct {
    phone_handle world;
    size_t first;
} share;
static void *checks_pieces(void *it) {
    share *mine = (share *)it;
    for (size_t piece = mine->first; piece * PIECE < rows; piece += THREADS) {
        size_t from = piece * PIECE, left = rows - from;
        check_rows(&mine->world, from, left < PIECE ? left : PIECE, piece % 2);
    }
    phone_close(&mine->world);
    return NULL;
}
static void in_threads(phone_handle *world) {
    pthread_t threads[THREADS];
    static share shares[THREADS];
    for (size_t i = 0; i < THREADS; i++) {
        shares[i].world = phone_closed(), shares[i].first = i;
        CHECK(50, phone_share(world, &shares[i].world) == PHONE_OK);
        CHECK(51, !pthread_create(&threads[i], NULL, checks_pieces, &shares[i]));
    }
    for (size_t i = 0; i < THREADS; i++) CHECK(52, !pthread_join(threads[i], NULL));
}

int main(int count, char **words) {
    static uint8_t table[1 << 22];
    phone_handle world = PHONE_CLOSED, crate = PHONE_CLOSED;
    FILE *file = count > 1 ? fopen(words[1], "rb") : NULL;
    CHECK(9, file != NULL);
    size_t len = fread(table, 1, sizeof table, file);
    fclose(file);
    CHECK(10, phone_open(table, len, PHONE_LIBRARY, &world) == PHONE_OK && phone_share_by(&world, PHONE_CRATE, &crate) == PHONE_OK);
    all_rows(&world);
    for (int by_crate = 0; by_crate < 2; by_crate++) {
        phone_handle *by = by_crate ? &crate : &world;
        learn(by);
        for (int is_narrow = 0; is_narrow < 2; is_narrow++) {
            check_rows(by, 0, rows, is_narrow);
            for (size_t size = 0; size <= 20; size++) check_rows(by, rows - 40 + size, size, is_narrow);
        }
        in_threads(by);
        check_one_hint(by, "NZ"), check_one_hint(by, ""), check_one_hint(by, "ZZ");
    }
    phone_close(&world);
    phone_close(&crate);
    printf("columns: %lu rows\ncolumns: ok\n", (unsigned long)rows);
    return 0;
}
