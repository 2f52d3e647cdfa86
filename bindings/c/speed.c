/* Columns of lines beside the calls for one text: speed TABLE LINES [THREADS [STRETCH [ANSWERS]]]. LINES has a region, `-` for none, a tab
 * and a text on each line. Where ANSWERS, of tools/million-lines, are named, columns of all lines are compared with them first.
 * Stretches of rows are asked in turn by phone_columns and by the calls for one text, by one thread, whose processor time is told: the
 * middle of each, and the middle of their ratio, of all columns and of E.164 alone. A stretch is asked once before, so that it stands in
 * the processor's cache. Then all rows are asked by one thread, five times, as an engine asks them: the middle of columns of what a report
 * tells, and of E.164 alone, and of the calls. Then by THREADS threads on one table, and by as many processes with a table each, in turn,
 * five times: the clock's middle of each. Each answer of phone_columns is compared with that of the calls. The last line is `speed: ok`. */
#define _POSIX_C_SOURCE 200809L
#include "phone.h"
#include <pthread.h>
#include <stdio.h>
#include <stdlib.h>
#include <string.h>
#include <sys/wait.h>
#include <time.h>
#include <unistd.h>
enum { ROOM = 256, MODES = 4, COLUMNS = 13, MOST = 1 << 16, TURNS = 5 };

static uint8_t *table, *text, *bytes, *hint_bytes;
static uint64_t *offsets, *hint_offsets;
static size_t table_len, rows, stretch = 500;
static long threads = 4;

static void *memory(size_t size) {
    void *at = calloc(size ? size : 1, 1);
    if (!at) puts("speed: no memory"), exit(1);
    return at;
}
static uint8_t *read_all(const char *path, size_t *len) {
    FILE *file = fopen(path, "rb");
    if (!file || fseek(file, 0, SEEK_END)) puts("speed: no file"), exit(1);
    long end = ftell(file);
    rewind(file);
    uint8_t *at = memory((size_t)end + 1);
    *len = fread(at, 1, (size_t)end, file);
    fclose(file);
    return at;
}
static double now(clockid_t clock) {
    struct timespec t;
    clock_gettime(clock, &t);
    return (double)t.tv_sec * 1e9 + (double)t.tv_nsec;
}
static int by_size(const void *a, const void *b) {
    double x = *(const double *)a, y = *(const double *)b;
    return (x > y) - (x < y);
}
static double middle(double *of, size_t count) {
    qsort(of, count, sizeof *of, by_size);
    return of[count / 2];
}

static void lay_out(const char *path) {
    size_t all;
    text = read_all(path, &all);
    for (size_t i = 0; i < all; i++) rows += text[i] == '\n';
    bytes = memory(all), hint_bytes = memory(2 * rows + 1);
    offsets = memory(8 * (rows + 1)), hint_offsets = memory(8 * (rows + 1));
    uint8_t *at = text;
    for (size_t i = 0; i < rows; i++) {
        uint8_t *end = memchr(at, '\n', (size_t)(text + all - at)), *tab = memchr(at, '\t', (size_t)(end - at));
        size_t len = (size_t)(end - tab - 1), hint = *at == '-' ? 0 : (size_t)(tab - at);
        memcpy(bytes + offsets[i], tab + 1, len), memcpy(hint_bytes + hint_offsets[i], at, hint);
        offsets[i + 1] = offsets[i] + len, hint_offsets[i + 1] = hint_offsets[i] + hint;
        at = end + 1;
    }
}

static const uint32_t ALL[COLUMNS] = {0, 1, 2, 3, 4, 5, 6, 7, 8, 9, 10, 11, 12};
/* What the other engines are asked, see bindings/python/engines.py. */
static const uint32_t TOLD[] = {PHONE_COLUMN_E164, PHONE_COLUMN_INTERNATIONAL, PHONE_COLUMN_NATIONAL, PHONE_COLUMN_RFC3966,
                                PHONE_COLUMN_KIND, PHONE_COLUMN_REGION, PHONE_COLUMN_VALIDITY, PHONE_COLUMN_IS_NUMBER};
enum { REPORTED = sizeof TOLD / sizeof *TOLD };
static const uint32_t E164[] = {PHONE_COLUMN_E164};
/* The columns of rows, from one on; how many bytes they take. */
static size_t by_column(phone_handle *world, const uint32_t *columns, size_t count, size_t from, size_t n, phone_place *places, uint8_t *out, size_t room) {
    phone_texts own = phone_texts_of(offsets + from, n, bytes, NULL, 0), with = phone_texts_of(hint_offsets + from, n, hint_bytes, NULL, 0);
    size_t wrote;
    if (phone_columns(world, &own, &with, columns, count, places, 2 * COLUMNS, out, room, &wrote) != PHONE_OK) puts("speed: refused"), exit(1);
    return wrote;
}
/* What the calls for one text tell of each row: all, or the E.164 text alone; compared where there is what columns told. */
static void by_calls(phone_handle *world, size_t from, size_t n, uint32_t modes, const phone_place *places, const uint8_t *out) {
    for (size_t i = from; i < from + n; i++) {
        phone_number number;
        uint8_t own[ROOM], told[ROOM], region[2], is_valid;
        size_t own_len, len, region_len;
        uint32_t kind;
        if (phone_parse(world, hint_bytes + hint_offsets[i], hint_offsets[i + 1] - hint_offsets[i], bytes + offsets[i], offsets[i + 1] - offsets[i],
                        &number, own, ROOM, &own_len) != PHONE_OK) continue;
        for (uint32_t mode = 0; mode < modes; mode++) {
            if (phone_format(world, &number, own, own_len, mode, told, ROOM, &len) != PHONE_OK) puts("speed: no text"), exit(1);
            if (!places) continue;
            uint64_t ends[2];
            memcpy(ends, out + places[2 * mode].start + 8 * (i - from), sizeof ends);
            if (ends[1] - ends[0] != len || memcmp(out + places[2 * mode + 1].start + ends[0], told, len)) printf("speed: row %lu differs\n", (unsigned long)i), exit(1);
        }
        if (modes < MODES) continue;
        phone_kind(world, &number, &kind), phone_region(world, &number, region, 2, &region_len), phone_is_valid(world, &number, &is_valid);
        if (places && (out[places[MODES + PHONE_COLUMN_KIND].start + i - from] != kind || out[places[MODES + PHONE_COLUMN_VALIDITY].start + i - from] != is_valid))
            printf("speed: row %lu differs\n", (unsigned long)i), exit(1);
    }
}

/* What columns tell of each row is its line of the answers. */
static void compare(phone_handle *world, const char *path) {
    size_t len, row = 0, room = 400 * stretch + 1024;
    uint8_t *answers = read_all(path, &len), *at = answers, *out = memory(room), line[2048], word[64];
    phone_place places[2 * COLUMNS] = {{0, 0}};
    for (size_t from = 0; from < rows; from += stretch) {
        size_t n = rows - from < stretch ? rows - from : stretch, wrote;
        by_column(world, ALL, COLUMNS, from, n, places, out, room);
        for (size_t i = 0; i < n; i++, row++) {
            uint8_t *to = line, *region = out + places[MODES + PHONE_COLUMN_REGION].start + 2 * i;
            for (int mode = 0; mode < MODES; mode++) {
                uint64_t ends[2];
                memcpy(ends, out + places[2 * mode].start + 8 * i, sizeof ends);
                if (ends[1] - ends[0] > ROOM) puts("speed: a text is too long"), exit(1);
                memcpy(to, out + places[2 * mode + 1].start + ends[0], ends[1] - ends[0]);
                to += ends[1] - ends[0], *to++ = '\t';
            }
            phone_word(PHONE_KIND_WORDS, out[places[MODES + PHONE_COLUMN_KIND].start + i], word, sizeof word, &wrote);
            to += sprintf((char *)to, "%.*s\t%.*s\t%s\n", (int)wrote, (char *)word, *region ? 2 : 1, *region ? (char *)region : "-",
                          out[places[MODES + PHONE_COLUMN_VALIDITY].start + i] ? "valid" : "invalid");
            if (!(out[places[MODES + PHONE_COLUMN_IS_NUMBER].start + i / 8] >> i % 8 & 1)) to = line + sprintf((char *)line, "error\n");
            if ((size_t)(answers + len - at) < (size_t)(to - line) || memcmp(at, line, (size_t)(to - line)))
                printf("speed: line %lu has another answer\n", (unsigned long)row + 1), exit(1);
            at += to - line;
        }
    }
    if (at != answers + len) puts("speed: there are more answers"), exit(1);
    printf("lines: %lu\n", (unsigned long)row);
    free(answers), free(out);
}

static void in_turn(phone_handle *world, const char *what, const uint32_t *columns, size_t count, uint32_t modes) {
    size_t turns = rows / stretch < 200 ? rows / stretch : 200, room = 400 * stretch + 1024;
    double *column = memory(8 * turns), *calls = memory(8 * turns), *ratio = memory(8 * turns);
    uint8_t *out = memory(room);
    phone_place places[2 * COLUMNS] = {{0, 0}};
    for (size_t turn = 0; turn < turns; turn++) {
        size_t from = turn * (rows / turns);
        by_calls(world, from, stretch, modes, NULL, NULL); /* what is read first comes into the processor's cache */
        double start = now(CLOCK_THREAD_CPUTIME_ID);
        by_column(world, columns, count, from, stretch, places, out, room);
        double then = now(CLOCK_THREAD_CPUTIME_ID);
        by_calls(world, from, stretch, modes, NULL, NULL);
        double end = now(CLOCK_THREAD_CPUTIME_ID);
        column[turn] = (then - start) / (double)stretch, calls[turn] = (end - then) / (double)stretch, ratio[turn] = column[turn] / calls[turn];
        by_calls(world, from, stretch, modes, places, out);
    }
    double one = middle(column, turns), other = middle(calls, turns);
    printf("%s: column %.0f ns a row, calls %.0f ns; the middle of %lu ratios %.2f\n", what, one, other, (unsigned long)turns, middle(ratio, turns));
    free(column), free(calls), free(ratio), free(out);
}

/* These columns of rows from one on, up to another, stretch by stretch. */
static void ask_columns(phone_handle *world, const uint32_t *columns, size_t count, size_t from, size_t end) {
    size_t room = 400 * stretch + 1024;
    uint8_t *out = memory(room);
    phone_place places[2 * COLUMNS] = {{0, 0}};
    for (; from < end; from += stretch) by_column(world, columns, count, from, end - from < stretch ? end - from : stretch, places, out, room);
    free(out);
}
static void whole(phone_handle *world, const char *what, const uint32_t *columns, size_t count, uint32_t modes) {
    double column[TURNS], calls[TURNS];
    for (int turn = 0; turn < TURNS; turn++) {
        double start = now(CLOCK_THREAD_CPUTIME_ID);
        ask_columns(world, columns, count, 0, rows);
        double then = now(CLOCK_THREAD_CPUTIME_ID);
        by_calls(world, 0, rows, modes, NULL, NULL);
        column[turn] = then - start, calls[turn] = now(CLOCK_THREAD_CPUTIME_ID) - then;
    }
    printf("%s of all rows: column %.0f ns a row, calls %.0f ns\n", what, middle(column, TURNS) / (double)rows, middle(calls, TURNS) / (double)rows);
}

typedef struct { phone_handle world; long part; } share;
static void *works(void *it) {
    share *mine = it;
    size_t part = (size_t)mine->part;
    ask_columns(&mine->world, TOLD, REPORTED, rows * part / (size_t)threads, rows * (part + 1) / (size_t)threads);
    phone_close(&mine->world);
    return NULL;
}
static double by_threads(phone_handle *world) {
    share *shares = memory(sizeof *shares * (size_t)threads);
    pthread_t *all = memory(sizeof *all * (size_t)threads);
    double start = now(CLOCK_MONOTONIC);
    for (long i = 0; i < threads; i++) {
        shares[i].part = i;
        if (phone_share(world, &shares[i].world) != PHONE_OK || pthread_create(&all[i], NULL, works, &shares[i])) puts("speed: no thread"), exit(1);
    }
    for (long i = 0; i < threads; i++) pthread_join(all[i], NULL);
    start = now(CLOCK_MONOTONIC) - start;
    free(shares), free(all);
    return start;
}
/* The processes open their tables first, and begin together. */
static double by_processes(void) {
    int ready[2], go[2];
    char byte = 0;
    if (pipe(ready) || pipe(go)) exit(1);
    for (long i = 0; i < threads; i++)
        if (!fork()) {
            share own = {PHONE_CLOSED, i};
            if (phone_open(table, table_len, PHONE_LIBRARY, &own.world) != PHONE_OK) _exit(1);
            if (write(ready[1], &byte, 1) != 1 || read(go[0], &byte, 1) != 1) _exit(1);
            works(&own);
            _exit(0);
        }
    for (long i = 0; i < threads; i++)
        if (read(ready[0], &byte, 1) != 1) exit(1);
    double start = now(CLOCK_MONOTONIC);
    for (long i = 0; i < threads; i++)
        if (write(go[1], &byte, 1) != 1) exit(1);
    while (wait(NULL) > 0) continue;
    start = now(CLOCK_MONOTONIC) - start;
    close(ready[0]), close(ready[1]), close(go[0]), close(go[1]);
    return start;
}

int main(int count, char **words) {
    phone_handle world = PHONE_CLOSED;
    if (count < 3) return puts("speed TABLE LINES [THREADS [STRETCH [ANSWERS]]]"), 2;
    table = read_all(words[1], &table_len);
    lay_out(words[2]);
    if (count > 3) threads = atol(words[3]);
    if (count > 4) stretch = (size_t)atol(words[4]);
    if (rows < stretch || stretch > MOST || phone_open(table, table_len, PHONE_LIBRARY, &world) != PHONE_OK) return puts("speed: no rows"), 1;
    if (count > 5) compare(&world, words[5]);
    in_turn(&world, "all", ALL, COLUMNS, MODES);
    in_turn(&world, "E.164", E164, 1, 1);
    whole(&world, "all", TOLD, REPORTED, MODES);
    whole(&world, "E.164", E164, 1, 1);
    double inside[TURNS], beside[TURNS], ratio[TURNS];
    for (int turn = 0; turn < TURNS && threads > 0; turn++) {
        inside[turn] = by_threads(&world), beside[turn] = by_processes(), ratio[turn] = inside[turn] / beside[turn];
        inside[turn] /= 1e9, beside[turn] /= 1e9;
    }
    if (threads > 0)
        printf("%ld threads: %.0f rows a second; as many processes: %.0f; the middle of %d ratios %.2f\n", threads, (double)rows / middle(inside, TURNS),
               (double)rows / middle(beside, TURNS), TURNS, middle(ratio, TURNS));
    phone_close(&world);
    puts("speed: ok");
    return 0;
}
