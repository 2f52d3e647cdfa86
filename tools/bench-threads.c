/* Goes over lines in threads that share a table, or in processes that have a table each; tools/bench-threads compiles and runs it.
 *
 *   bench-threads TABLE LINES RULES WHAT threads COUNT TOTAL     one table, and a handle on it for each thread
 *   bench-threads TABLE LINES RULES WHAT processes COUNT TOTAL   each process opens a table
 *   bench-threads TABLE LINES RULES WHAT memory COUNT TOTAL      by 1, 2 .. COUNT threads in turn: what memory the process has then
 *   bench-threads TABLE LINES RULES WHAT once ROUNDS             in one thread, so many times over the lines, for callgrind
 *
 * LINES is a file of lines: a region, `-` for none, one tab, and the text. RULES is `library` or `crate`; WHAT is `read` or
 * `report`. TOTAL lines are read in all: those of the file again and again, cut into equal parts. Told are the seconds with
 * opening and without it, how many lines are numbers, and a sum over all answers. */
#define _GNU_SOURCE
#include "phone.h"
#include <pthread.h>
#include <stdio.h>
#include <stdlib.h>
#include <string.h>
#include <sys/mman.h>
#include <sys/wait.h>
#include <time.h>
#include <unistd.h>
#define MOST 256
#define OUGHT(it) do { if (!(it)) { fprintf(stderr, "bench-threads: not so: %s\n", #it); exit(3); } } while (0)

/* A line of the file, and where its region and its text stand. */
typedef struct { const uint8_t *hint, *text; size_t hint_len, text_len; } line;
/* What one thread or process found, and a thread's handle, which each call writes. Neither shares a line of the processor's cache
 * with another thread's. */
typedef struct { _Alignas(128) uint64_t numbers, sum; } found;
typedef struct { _Alignas(128) phone_handle handle; int place; } worker;
/* What processes share with the one that forked them. */
typedef struct { pthread_barrier_t start, end; found found[MOST]; } shared;

static uint8_t *table;
static size_t table_len, count, total, line_count;
static line *lines;
static uint32_t rules;
static int reports;
static shared *all;

static double now(void) {
    struct timespec t;
    clock_gettime(CLOCK_MONOTONIC, &t);
    return (double)t.tv_sec + (double)t.tv_nsec / 1e9;
}

static uint8_t *held(const char *path, size_t *len) {
    FILE *file = fopen(path, "rb");
    OUGHT(file && !fseek(file, 0, SEEK_END));
    uint8_t *text = malloc((*len = (size_t)ftell(file)) + 1);
    rewind(file);
    OUGHT(text && fread(text, 1, *len, file) == *len);
    fclose(file);
    return text;
}

static void cut(const uint8_t *text, size_t len) {
    const uint8_t *last = text + len, *end, *tab;
    OUGHT(lines = malloc((len + 1) * sizeof *lines));
    for (const uint8_t *at = text; at < last; at = end + 1) {
        if (!(end = memchr(at, '\n', (size_t)(last - at)))) end = last;
        OUGHT(tab = memchr(at, '\t', (size_t)(end - at)));
        lines[line_count++] = (line){at, tab + 1, *at == '-' ? 0 : (size_t)(tab - at), (size_t)(end - tab - 1)};
    }
    OUGHT(line_count);
}

/* The lines from a place to before another, where those of the file come again and again. */
static found go(phone_handle *handle, size_t from, size_t to) {
    found it = {0, 0};
    uint8_t out[1024] = {0};
    phone_number number = {0};
    for (size_t at = from, place = from % line_count; at < to; at++) {
        const line *this = &lines[place];
        size_t wrote = 0;
        phone_status status;
        if (reports) {
            status = phone_report(handle, this->hint, this->hint_len, this->text, this->text_len, out, sizeof out, &wrote);
            OUGHT(status == PHONE_OK);
            if (*out == 'o') it.numbers++;
            it.sum += wrote * 31 + out[wrote / 2];
        } else {
            status = phone_parse(handle, this->hint, this->hint_len, this->text, this->text_len, &number, out, sizeof out, &wrote);
            if (status == PHONE_OK) it.numbers++, it.sum += number.value * 31 + number.code;
            it.sum += status;
        }
        if (++place == line_count) place = 0;
    }
    return it;
}

/* A part of all lines, once everybody is there. */
static void work(phone_handle *handle, int place) {
    pthread_barrier_wait(&all->start);
    all->found[place] = go(handle, total * (size_t)place / count, total * ((size_t)place + 1) / count);
    pthread_barrier_wait(&all->end);
}
static void *in_thread(void *it) {
    worker *mine = it;
    work(&mine->handle, mine->place);
    phone_close(&mine->handle);
    return NULL;
}
static void in_process(int place) {
    phone_handle handle = PHONE_CLOSED;
    OUGHT(phone_open(table, table_len, rules, &handle) == PHONE_OK);
    work(&handle, place);
    _exit(0);
}

/* Waits at both barriers, for as many as there are, and gives the seconds between them. */
static double watched(void) {
    pthread_barrier_wait(&all->start);
    double start = now();
    pthread_barrier_wait(&all->end);
    return now() - start;
}
static void make_barriers(void) {
    pthread_barrierattr_t how;
    OUGHT(!pthread_barrierattr_init(&how) && !pthread_barrierattr_setpshared(&how, PTHREAD_PROCESS_SHARED));
    OUGHT(!pthread_barrier_init(&all->start, &how, (unsigned)count + 1) && !pthread_barrier_init(&all->end, &how, (unsigned)count + 1));
}

/* By threads whose handles are made of this one. */
static double by_threads(phone_handle *world) {
    static worker workers[MOST];
    pthread_t threads[MOST];
    double took;
    make_barriers();
    for (size_t i = 0; i < count; i++) {
        workers[i].place = (int)i;
        OUGHT(phone_share(world, &workers[i].handle) == PHONE_OK);
        OUGHT(!pthread_create(&threads[i], NULL, in_thread, &workers[i]));
    }
    took = watched();
    for (size_t i = 0; i < count; i++) OUGHT(!pthread_join(threads[i], NULL));
    return took;
}
static double by_processes(void) {
    double took;
    make_barriers();
    for (int i = 0; i < (int)count; i++) {
        pid_t child = fork();
        OUGHT(child >= 0);
        if (!child) in_process(i);
    }
    took = watched();
    for (size_t i = 0; i < count; i++) {
        int status = 0;
        OUGHT(wait(&status) > 0 && status == 0);
    }
    return took;
}

static long kilobytes(const char *name) {
    char row[256];
    long found = -1;
    FILE *file = fopen("/proc/self/status", "r");
    OUGHT(file);
    while (fgets(row, sizeof row, file))
        if (!strncmp(row, name, strlen(name))) found = atol(row + strlen(name) + 1);
    fclose(file);
    return found;
}

static void tell(double whole, double took) {
    uint64_t numbers = 0, sum = 0;
    for (size_t i = 0; i < count; i++) numbers += all->found[i].numbers, sum += all->found[i].sum;
    printf("%.4f %.4f %llu %llu\n", whole, took, (unsigned long long)numbers, (unsigned long long)sum);
}

int main(int argc, char **words) {
    size_t len;
    uint8_t *text;
    phone_handle world = PHONE_CLOSED;
    if (argc < 7 || argc > 8) return 2;
    table = held(words[1], &table_len);
    text = held(words[2], &len);
    cut(text, len);
    rules = strcmp(words[3], "crate") ? PHONE_LIBRARY : PHONE_CRATE;
    reports = !strcmp(words[4], "report");
    count = (size_t)atol(words[6]);
    total = argc > 7 ? (size_t)atol(words[7]) : count * line_count;
    all = mmap(NULL, sizeof *all, PROT_READ | PROT_WRITE, MAP_SHARED | MAP_ANONYMOUS, -1, 0);
    OUGHT(all != MAP_FAILED && (count <= MOST || argc == 7));
    double start = now(), took;
    if (!strcmp(words[5], "processes")) {
        took = by_processes();
        return tell(now() - start, took), 0;
    }
    OUGHT(phone_open(table, table_len, rules, &world) == PHONE_OK);
    if (!strcmp(words[5], "once")) {
        all->found[0] = go(&world, 0, total);
        count = 1;
        tell(0, 0);
    } else if (!strcmp(words[5], "threads")) {
        took = by_threads(&world);
        tell(now() - start, took);
    } else for (size_t most = count, i = 0; i <= most; i++) {
        count = i;
        if (i) by_threads(&world);
        printf("%zu %ld %ld\n", i, kilobytes("VmRSS:"), kilobytes("VmHWM:"));
    }
    phone_close(&world);
    return 0;
}
